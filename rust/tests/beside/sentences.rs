//! Sentences: the writer and the reader for C beside the plain implementation, number by number and byte by byte.
use crate::inputs::outcomes::{edges, some_outcome, some_text, GARBLED};
use crate::inputs::Dice;
use crate::lent::Buffer;
use crate::plain::sentences::{outcome_of, sentence_of, Answer, Event, Outcome};
use crate::raw::{self, Numbers};
use crate::tally::Tally;

/// The named size of the line.
const SIZE: usize = 160;

/// The numbers of an outcome.
fn numbers_of(outcome: &Outcome) -> Numbers {
    let (kind, code, other) = match outcome.event {
        Event::Depot(code) => (1, code, 0),
        Event::Link(first, second) => (2, first, second),
        Event::Closing(code) => (3, code, 0),
        Event::Yard(code) => (4, code, 0),
    };
    let (letter, refusal) = match outcome.answer {
        Answer::Grew => (b'G', 0),
        Answer::Kept => (b'K', 0),
        Answer::Shrank => (b'S', 0),
        Answer::Refused(number) => (0, number),
    };
    let Outcome { depots, chain, pairs, searches, .. } = *outcome;
    Numbers { kind, code, other, letter, refusal, depots, chain, pairs, searches }
}

/// The outcome of these numbers, if they are those of one.
fn outcome_by(n: &Numbers) -> Option<Outcome> {
    let event = match (n.kind, n.other) {
        (1, 0) => Event::Depot(n.code),
        (2, other) => Event::Link(n.code, other),
        (3, 0) => Event::Closing(n.code),
        (4, 0) => Event::Yard(n.code),
        _ => return None,
    };
    let answer = match (n.letter, n.refusal) {
        (0, number) => Answer::Refused(number),
        (b'G', 0) => Answer::Grew,
        (b'K', 0) => Answer::Kept,
        (b'S', 0) => Answer::Shrank,
        _ => return None,
    };
    Some(Outcome { event, answer, depots: n.depots, chain: n.chain, pairs: n.pairs, searches: n.searches })
}

/// Writes into so many lent bytes: answer, length and every byte are those of the plain way, the bytes behind the lent ones too.
fn write(dice: &mut Dice, numbers: &Numbers, lent: usize) -> u8 {
    let mut line = Buffer { data: dice.bytes(lent + 7), lent };
    let mut length = 12_345;
    let mut expected = (0, length, line.clone());
    match outcome_by(numbers) {
        _ if lent < SIZE => expected.0 = 1,
        None => expected.0 = 9,
        Some(outcome) => {
            let text = sentence_of(&outcome);
            expected.1 = text.len();
            expected.2.data[..text.len()].copy_from_slice(text.as_bytes());
        }
    }
    let answer = raw::sentence(&mut line, &mut length, numbers);
    assert_eq!((answer, length, line), expected, "{numbers:?} into {lent} bytes");
    answer
}

/// Reads a text with something behind it, which is not lent: the numbers are those of the plain way, and where the text is garbled they are as they were.
fn read_before(dice: &mut Dice, text: &[u8], behind: &[u8]) -> u8 {
    let mut numbers = numbers_of(&some_outcome(dice));
    let mut lent = Buffer { data: [text, behind].concat(), lent: text.len() };
    let (number, expected) = outcome_of(text).map_or((9, numbers), |outcome| (0, numbers_of(&outcome)));
    let before = lent.clone();
    let answer = raw::read_sentence(&mut numbers, &mut lent);
    assert_eq!((answer, numbers), (number, expected), "{}", String::from_utf8_lossy(text));
    assert!(lent == before);
    answer
}

fn read(dice: &mut Dice, text: &[u8]) -> u8 {
    let behind = dice.pick(&[&b""[..], b"0", b".", b" \n"]);
    read_before(dice, text, behind)
}

#[test]
fn sentences_are_written_and_read_again() {
    for seed in 0..40_000 {
        let mut dice = Dice::new(42_000_000 + seed);
        let outcome = some_outcome(&mut dice);
        let lent = dice.pick(&[160, 160, 161, 200]);
        assert_eq!(write(&mut dice, &numbers_of(&outcome), lent), 0);
        assert_eq!(read(&mut dice, sentence_of(&outcome).as_bytes()), 0);
    }
}

/// Too few bytes are short even where the sentence would fit, and where the numbers are no outcome's.
#[test]
fn short_comes_first() {
    let mut tally = Tally::new();
    for lent in 0..170 {
        let mut dice = Dice::new(43_000_000 + lent as u64);
        for _ in 0..20 {
            let right = numbers_of(&some_outcome(&mut dice));
            for wrong in [
                right,
                Numbers { kind: dice.byte(), ..right },
                Numbers { letter: dice.byte(), ..right },
                Numbers { refusal: dice.byte(), ..right },
                Numbers { other: 7, ..right },
            ] {
                let answer = write(&mut dice, &wrong, lent);
                assert_eq!(answer == 1, lent < SIZE);
                tally.count(answer);
            }
        }
    }
    tally.assert_only(&[0, 1, 9]);
}

/// Every kind with every sort of letter, refusal and second code, and every letter with every refusal: most are no outcome's.
#[test]
fn numbers_that_are_no_outcome() {
    let mut dice = Dice::new(44_000_000);
    let right = Numbers { kind: 1, code: 5, other: 0, letter: b'S', refusal: 0, depots: 6, chain: 3, pairs: 2, searches: 6 };
    let mut tally = Tally::new();
    for kind in 0..=255 {
        for letter in [0, 1, b'F', b'G', b'H', b'K', b'R', b'S', b'g', 255] {
            for refusal in [0, 1, 71, 255] {
                for other in [0, 1, 256, 65_535] {
                    tally.count(write(&mut dice, &Numbers { kind, other, letter, refusal, ..right }, SIZE));
                }
            }
        }
    }
    // three letters and four refusals, for three kinds with one second code and for a link with four
    assert_eq!(tally.times(0), 7 * (3 + 4));
    let mut tally = Tally::new();
    for letter in 0..=255 {
        for refusal in 0..=255 {
            tally.count(write(&mut dice, &Numbers { letter, refusal, ..right }, SIZE));
        }
    }
    assert_eq!((tally.times(0), tally.times(9)), (3 + 256, 65_536 - 259));
}

#[test]
fn texts_that_are_nearly_sentences() {
    let mut tally = Tally::new();
    for seed in 0..60_000 {
        let mut dice = Dice::new(45_000_000 + seed);
        let text = some_text(&mut dice);
        tally.count(read(&mut dice, &text));
    }
    tally.assert_only(&[0, 9]);
    tally.assert_all(&[0, 9], 3_000);
}

#[test]
fn numbers_at_the_edge_of_their_widths() {
    let mut dice = Dice::new(46_000_000);
    for (text, reads) in edges() {
        assert_eq!(read(&mut dice, text.as_bytes()), if reads { 0 } else { 9 }, "{text}");
    }
}

const SENTENCES: [&[u8]; 4] = [
    b"Opening depot 5 shrank the chain: 6 open, chain 3, pairs 2, searches 6.",
    b"Opening yard 65535 grew the chain: 65535 open, chain 0, pairs 4294967295, searches 10.",
    b"Linking 3 and 5 was refused with 255: 6 open, chain 3, pairs 2, searches 0.",
    b"Closing 0 kept the chain: 0 open, chain 0, pairs 0, searches 0.",
];

/// Each byte in each place, and put in there.
#[test]
fn every_byte_in_every_place() {
    let mut dice = Dice::new(47_000_000);
    for text in SENTENCES {
        for at in 0..text.len() {
            for byte in 0..=255 {
                read(&mut dice, &[&text[..at], &[byte], &text[at + 1..]].concat());
                read(&mut dice, &[&text[..at], &[byte], &text[at..]].concat());
            }
        }
    }
}

/// The front of a sentence with the rest behind it, which is not lent, is garbled; so is all of it but its front.
#[test]
fn every_part_of_a_sentence() {
    let mut dice = Dice::new(48_000_000);
    for text in SENTENCES {
        for at in 0..text.len() {
            assert_eq!(read_before(&mut dice, &text[..at], &text[at..]), 9);
            assert_eq!(read(&mut dice, &text[at..]), if at == 0 { 0 } else { 9 });
        }
        assert_eq!(read_before(&mut dice, text, text), 0);
    }
}

#[test]
fn garbled_by_name() {
    let mut dice = Dice::new(49_000_000);
    for (name, text) in GARBLED {
        assert_eq!(read(&mut dice, text.as_bytes()), 9, "{name}");
    }
    // much text: a sentence with blanks or another one behind it, numbers of a million digits, zeros
    let digits = "9".repeat(1_000_000);
    let figures = "6 open, chain 3, pairs 2, searches 6.";
    for text in [
        format!("Closing 5 kept the chain: {figures}{}", " ".repeat(1_000_000)),
        format!("Closing 5 kept the chain: {figures}").repeat(1_000),
        format!("Closing {digits} kept the chain: {figures}"),
        format!("Closing 5 was refused with {digits}: {figures}"),
        format!("Closing 5 kept the chain: 6 open, chain 3, pairs 2, searches {digits}."),
        format!("Closing {}5 kept the chain: {figures}", "0".repeat(200)),
        "\0".repeat(200),
    ] {
        assert_eq!(read(&mut dice, text.as_bytes()), 9);
    }
    assert_eq!(read(&mut dice, b"Closing \xFF kept the chain: 6 open, chain 3, pairs 2, searches 6."), 9);
}

/// Two codes, a refusal, and every number as long as it gets: 104 bytes.
#[test]
fn the_longest_sentence() {
    let longest = Outcome {
        event: Event::Link(65_535, 65_535),
        answer: Answer::Refused(255),
        depots: 65_535,
        chain: 65_535,
        pairs: u32::MAX,
        searches: 65_535,
    };
    assert_eq!(sentence_of(&longest).len(), 104);
    let mut dice = Dice::new(50_000_000);
    for (lent, answer) in [(104, 1), (159, 1), (160, 0), (161, 0)] {
        assert_eq!(write(&mut dice, &numbers_of(&longest), lent), answer);
    }
}
