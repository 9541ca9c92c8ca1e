//! The safe types over an archive of another version: one whose version and answers a test sets. The crate's own files are taken in here; only the
//! module that calls the archive is another, and has no archive behind it.
#![allow(dead_code)]

#[path = "../src/map.rs"]
mod map;
#[path = "../src/notice.rs"]
mod notice;
#[path = "../src/refusal.rs"]
mod refusal;
#[path = "../src/report.rs"]
mod report;
#[path = "../src/row.rs"]
mod row;
#[path = "../src/sentence.rs"]
mod sentence;
#[path = "../src/stream.rs"]
mod stream;
#[path = "../src/version.rs"]
mod version;

/// The calls, each of which gives the answer that was set; but for the readers, which have a frame and an outcome, they touch nothing.
mod ffi {
    use crate::map::{Memory, Search, Summary};
    use std::cell::Cell;

    thread_local! {
        pub static VERSION: Cell<u32> = const { Cell::new(4001) };
        pub static ANSWER: Cell<u8> = const { Cell::new(0) };
        /// What a line reads as, where the answer is 0.
        pub static FRAME: Cell<&'static [u8]> = const { Cell::new(&[1, 0, 0]) };
        /// What a sentence reads as, likewise.
        pub static TOLD: Cell<Told> = const { Cell::new(SHRANK) };
    }

    /// The numbers of the sentence of rule 18.2.
    pub const SHRANK: Told = Told { kind: 1, code: 5, other: 0, letter: b'S', refusal: 0, depots: 6, chain: 3, pairs: 2, searches: 6 };

    pub struct Progress {
        pub line: [u8; 517],
        pub lines: u32,
        pub held: usize,
    }

    #[derive(Clone, Copy, Default)]
    pub struct Told {
        pub kind: u8,
        pub code: u16,
        pub other: u16,
        pub letter: u8,
        pub refusal: u8,
        pub depots: u16,
        pub chain: u16,
        pub pairs: u32,
        pub searches: u16,
    }

    pub fn sentence(_: &mut [u8], _: &mut usize, _: &Told) -> u8 {
        ANSWER.get()
    }

    pub fn read_sentence(told: &mut Told, _: &[u8]) -> u8 {
        if ANSWER.get() == 0 {
            *told = TOLD.get();
        }
        ANSWER.get()
    }

    pub struct Fields {
        pub number: u32,
        pub answer: u8,
        pub depots: u16,
        pub chain: u16,
        pub pairs: u32,
        pub searches: u16,
    }

    pub fn version() -> u32 {
        VERSION.get()
    }

    pub fn empty(_: &mut Memory) -> u8 {
        ANSWER.get()
    }

    pub fn search(_: &Memory, _: &mut Search, _: u8) -> u8 {
        ANSWER.get()
    }

    pub fn within(_: &Memory, _: &mut [u8; 256], _: &mut u16, _: u8, _: u32) -> u8 {
        ANSWER.get()
    }

    pub fn nearest(_: &Memory, _: &mut u8, _: &mut u16, _: u8, _: &[u8]) -> u8 {
        ANSWER.get()
    }

    pub fn summary(_: &Memory, _: &mut Summary) -> u8 {
        ANSWER.get()
    }

    pub fn reckon(_: &mut Memory, _: &mut u16) -> u8 {
        ANSWER.get()
    }

    pub fn open(_: &mut Memory, _: &mut u16, _: u8, _: &[u8]) -> u8 {
        ANSWER.get()
    }

    pub fn open_yard(_: &mut Memory, _: &mut u16, _: u8, _: &[u8]) -> u8 {
        ANSWER.get()
    }

    pub fn link(_: &mut Memory, _: &mut u16, _: u8, _: u8) -> u8 {
        ANSWER.get()
    }

    pub fn open_batch(_: &mut Memory, _: &mut [u8; 64], _: &mut u8, _: &[u8]) -> u8 {
        ANSWER.get()
    }

    pub fn read_notice(frame: &mut [u8], length: &mut usize, _: &mut usize, _: &[u8]) -> u8 {
        if ANSWER.get() == 0 {
            let read = FRAME.get();
            frame[..read.len()].copy_from_slice(read);
            *length = read.len();
        }
        ANSWER.get()
    }

    pub fn write_notice(_: &mut [u8], _: &mut usize, _: &[u8]) -> u8 {
        ANSWER.get()
    }

    pub fn report(_: &mut [u8], _: &mut usize, _: &Fields) -> u8 {
        ANSWER.get()
    }

    pub fn feed(_: &mut Memory, _: &mut Progress, _: &mut [u8], _: &mut usize, _: &mut usize, _: &[u8]) -> u8 {
        ANSWER.get()
    }

    pub fn finish(_: &mut Memory, _: &mut Progress, _: &mut [u8], _: &mut usize) -> u8 {
        ANSWER.get()
    }
}

use map::{Change, Map};
use notice::Notice;
use refusal::Refusal;
use sentence::{Event, Outcome};
use std::panic::catch_unwind;
use stream::Stream;
use version::Version;

/// What each call says that can be refused, in words, when the archive answers this number.
fn answers(number: u8) -> Vec<Option<Refusal>> {
    ffi::ANSWER.set(number);
    let (mut map, mut stream) = (Map::new(), Stream::new());
    vec![
        map.open(1, &[]).err(),
        map.open_yard(1, &[]).err(),
        map.link(1, 2).err(),
        map.open_batch(b"").err(),
        map.search(1).err(),
        map.within(1, 1).err(),
        map.nearest(1, &[1]).err(),
        map.summary().err(),
        map.reckon().err(),
        notice::read(b"").err(),
        notice::write(&[]).err(),
        "".parse::<Outcome>().err(),
        stream.feed(b"", &mut []).err(),
        stream.finish(&mut []).err(),
    ]
}

/// Every number of a byte is an answer that has a value: done, one of the refusals with a name, or another refusal with its number.
#[test]
fn numbers_without_a_name() {
    for number in 1..=255u8 {
        let expected = Refusal::from_number(number).unwrap_or(Refusal::Other(number));
        let said = answers(number);
        let is_letter = b"GKS".contains(&number);
        assert_eq!(said[..3], vec![(!is_letter).then_some(expected); 3]);
        assert_eq!(said[3..], vec![Some(expected); 11]);
        assert_eq!(expected.number(), number);
        assert_eq!(expected.word().is_empty(), number > 15);
        assert!(expected.to_string().contains(&format!("({number})")));
    }
    assert_eq!(answers(0)[3..], vec![None; 11]);
    assert_eq!(Refusal::of(16).to_string(), "refused (16): the archive is newer than the crate, which has no word for it");
}

#[test]
fn the_letters_of_an_opening_or_a_link() {
    for (letter, change) in [(b'G', Change::Grew), (b'K', Change::Kept), (b'S', Change::Shrank)] {
        ffi::ANSWER.set(letter);
        assert_eq!(Map::new().open(0, &[]).map(|opened| opened.change), Ok(change));
        assert_eq!(Map::new().open_yard(0, &[]).map(|opened| opened.change), Ok(change));
        assert_eq!(Map::new().link(0, 1).map(|linked| linked.change), Ok(change));
        assert_eq!(change.letter(), char::from(letter));
    }
}

/// A frame is a notice by its kind; one of a kind that the crate does not know is garbled to it.
#[test]
fn kinds_without_a_name() {
    let opening = Notice::Opening { code: 7, neighbours: vec![5, 3] };
    let link = Notice::Link { first: 9, second: 2 };
    let yard = Notice::YardOpening { code: 7, neighbours: vec![5, 3] };
    let kinds: [(&'static [u8], Result<Notice, Refusal>); 6] = [
        (&[1, 7, 2, 5, 3], Ok(opening)),
        (&[2, 9, 2], Ok(link)),
        (&[4, 7, 2, 5, 3], Ok(yard)),
        (&[3, 9], Err(Refusal::Garbled)),
        (&[5, 7, 0], Err(Refusal::Garbled)),
        (&[0x11, 0, 7, 0, 0], Err(Refusal::Garbled)),
    ];
    ffi::ANSWER.set(0);
    for (frame, expected) in kinds {
        ffi::FRAME.set(frame);
        let read = notice::read(b"").map(|(notice, _)| notice);
        assert_eq!(read, expected);
        assert!(read.is_err() || read.is_ok_and(|notice| notice.frame() == frame));
    }
}

/// Numbers are an outcome by their kind and letter; those of a kind or letter that the crate does not know are garbled to it.
#[test]
fn sentences_of_kinds_without_a_name() {
    ffi::ANSWER.set(0);
    let told = ffi::SHRANK;
    let outcome = Outcome { event: Event::Depot(5), answer: Ok(Change::Shrank), depots: 6, chain: 3, pairs: 2, searches: 6 };
    let link = Event::Link { first: 5, second: 3 };
    let numbers = [
        (told, Ok(outcome)),
        (ffi::Told { kind: 4, ..told }, Ok(Outcome { event: Event::Yard(5), ..outcome })),
        (ffi::Told { kind: 3, letter: b'K', ..told }, Ok(Outcome { event: Event::Closing(5), answer: Ok(Change::Kept), ..outcome })),
        (ffi::Told { kind: 2, other: 3, letter: b'G', ..told }, Ok(Outcome { event: link, answer: Ok(Change::Grew), ..outcome })),
        (ffi::Told { letter: 0, refusal: 71, ..told }, Ok(Outcome { answer: Err(71), ..outcome })),
        (ffi::Told { letter: 0, ..told }, Ok(Outcome { answer: Err(0), ..outcome })),
        (ffi::Told { kind: 5, ..told }, Err(Refusal::Garbled)),
        (ffi::Told { kind: 0, ..told }, Err(Refusal::Garbled)),
        (ffi::Told { letter: b'R', ..told }, Err(Refusal::Garbled)),
    ];
    for (told, expected) in numbers {
        ffi::TOLD.set(told);
        assert_eq!("".parse(), expected);
    }
}

/// An archive that does not serve is refused before anything is lent to it; one with more serves.
#[test]
fn archives_of_other_versions() {
    let ways: [fn(); 6] = [
        || drop(Map::new()),
        || drop(Stream::new()),
        || drop(notice::read(b"010000\n")),
        || drop(notice::write(&[1, 0, 0])),
        || assert!("".parse::<Outcome>().is_ok()),
        || assert_eq!(Outcome { event: Event::Depot(5), answer: Err(7), depots: 6, chain: 3, pairs: 2, searches: 0 }.to_string(), ""),
    ];
    for (version, serves) in [
        (3000, false),
        (3001, false),
        (3999, false),
        (4000, false),
        (4001, true),
        (4002, true),
        (4999, true),
        (0, false),
        (1000, false),
        (1999, false),
        (2000, false),
        (2002, false),
        (2999, false),
        (5000, false),
        (5001, false),
        (5003, false),
        (u32::MAX, false),
    ] {
        ffi::VERSION.set(version);
        assert_eq!(Version::of_archive().serves(), serves, "{version}");
        for way in ways {
            assert_eq!(catch_unwind(way).is_ok(), serves, "{version}");
        }
    }
    ffi::VERSION.set(5003);
    let said = catch_unwind(Map::new).expect_err("it does not serve");
    let text = said.downcast_ref::<String>().expect("a text");
    assert_eq!(text, "libzorpedi.a has version 5.3, this crate was written for 4.1");
}
