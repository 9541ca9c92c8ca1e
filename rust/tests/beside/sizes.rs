//! Buffers one element below their named size, at it and one above it, in every combination, for every call.
use crate::both::{empty, feed, finish, link, nearest, open, open_batch, open_yard, read, reckon, report, search, summary, within, write};
use crate::expected::{RECORD, YARDS};
use crate::inputs::lines::notice_line;
use crate::inputs::Dice;
use crate::lent::{Lent, SIZES};
use crate::maps::{any_memory, true_map};
use crate::plain::lines::Fields;
use crate::tally::Tally;

const MAP: [usize; 8] = [0, 1, 2, 3, 4, 5, 6, 7];

/// A map of a few depots, in memory with room behind every buffer.
fn small_map(seed: u64) -> (Lent, u8) {
    (seed..)
        .map(|seed| true_map(&mut Dice::new(17_000_000 + seed)))
        .find(|(_, network)| (2..12).contains(&network.open.len()) && network.open.len() < 256)
        .map(|(m, network)| (m, *network.open.first().expect("a few are open") as u8))
        .expect("some map is small")
}

/// Makes a call with every combination of these sizes, of which 1 is the named one: it is refused with 1 exactly if some buffer is short.
fn every_combination(m: &Lent, buffers: &[usize], sizes: usize, call: impl Fn(&mut Lent) -> u8) {
    let mut tally = Tally::new();
    for combination in 0..sizes.pow(buffers.len() as u32) {
        let mut lent = m.clone();
        let mut is_short = false;
        for (place, &which) in buffers.iter().enumerate() {
            let more = combination / sizes.pow(place as u32) % sizes;
            lent.set_lent(which, SIZES[which] - 1 + more);
            is_short |= more == 0;
        }
        let answer = call(&mut lent);
        assert_eq!(answer == 1, is_short, "combination {combination}");
        tally.count(u8::from(answer == 1));
    }
    tally.assert_only(&[0, 1]);
}

#[test]
fn of_an_emptying() {
    every_combination(&small_map(0).0, &[0, 1, 2], 3, empty);
    // a short table is refused though the other is longer
    let mut m = small_map(0).0;
    m.set_lent(1, 0);
    m.set_lent(2, 1029);
    assert_eq!(empty(&mut m), 1);
}

#[test]
fn of_a_search() {
    let (m, code) = small_map(100);
    every_combination(&m, &[0, 1, 3, 6, 7], 3, |m| search(m, code));
    // nothing else is asked for
    let mut m = m;
    for which in [2, 4, 5, 8, 9, 10, 11, 12, 13] {
        m.set_lent(which, 0);
    }
    assert_eq!(search(&mut m, code), 0);
}

#[test]
fn of_the_calls_on_near_depots() {
    let (m, code) = small_map(500);
    every_combination(&m, &[0, 1, 3, 6, 7, 11], 3, |m| within(m, code, 2));
    every_combination(&m, &[0, 1, 3, 6, 7], 3, |m| nearest(m, code, &[code]));
}

#[test]
fn of_a_summary() {
    every_combination(&small_map(800).0, &[0, 1, 3, 6, 7, 13], 3, summary);
}

#[test]
fn of_a_reckoning() {
    every_combination(&small_map(200).0, &MAP, 3, reckon);
}

fn closed_code(m: &Lent) -> u8 {
    (0..=255).find(|&v| m.record.data[usize::from(v / 64)] >> (v % 64) & 1 == 0).expect("some code is closed")
}

#[test]
fn of_an_opening() {
    let (m, code) = small_map(300);
    let closed = closed_code(&m);
    every_combination(&m, &MAP, 3, |m| open(m, closed, &[code]));
    every_combination(&m, &MAP, 3, |m| open_yard(m, closed, &[code]));
}

/// A record without its yard set, or with a part of it, is short in every call, though the map has no yard; so is any shorter one.
#[test]
fn of_a_record_without_its_yards() {
    let (mut m, code) = small_map(900);
    m.record.data[YARDS..RECORD].fill(0);
    let closed = closed_code(&m);
    (m.held, m.lines) = (3, 5);
    for words in 0..=12 {
        m.set_lent(0, words);
        let answers = [
            empty(&mut m.clone()),
            search(&mut m.clone(), code),
            within(&mut m.clone(), code, 1),
            nearest(&mut m.clone(), code, &[code]),
            summary(&mut m.clone()),
            reckon(&mut m.clone()),
            open(&mut m.clone(), closed, &[code]),
            open_yard(&mut m.clone(), closed, &[code]),
            link(&mut m.clone(), code, code),
            open_batch(&mut m.clone(), b""),
            feed(&mut m.clone(), b""),
            finish(&mut m.clone()),
        ];
        assert!(answers.iter().all(|&answer| (answer == 1) == (words < RECORD)), "{words} words: {answers:?}");
    }
}

/// The link of the lowest open code with a closed one, with itself and with another open one: short comes first.
#[test]
fn of_a_link() {
    let (m, code) = small_map(700);
    let other = (0..=255).rev().find(|&v| m.record.data[usize::from(v / 64)] >> (v % 64) & 1 == 1).expect("two are open");
    for second in [closed_code(&m), code, other] {
        every_combination(&m, &MAP, 3, |m| link(m, code, second));
    }
    // nothing else is asked for
    let mut m = m;
    for which in [8, 9, 10, 11, 12, 13] {
        m.set_lent(which, 0);
    }
    assert_eq!(link(&mut m, code, code), 13);
}

/// The places for the lines left over are asked for even where none is, and where there is no line.
#[test]
fn of_a_batch() {
    let (m, code) = small_map(600);
    let line = notice_line(closed_code(&m).into(), &[code]);
    let mut buffers = MAP.to_vec();
    buffers.push(12);
    every_combination(&m, &buffers, 3, |m| open_batch(m, &line));
    every_combination(&m, &[12], 3, |m| open_batch(m, b""));
    // nothing else is asked for
    let mut m = m;
    for which in [8, 9, 10, 11, 13] {
        m.set_lent(which, 0);
    }
    assert_eq!(open_batch(&mut m, &line), 0);
}

#[test]
fn of_a_stream() {
    let (mut m, _) = small_map(400);
    (m.held, m.lines) = (3, 5);
    let buffers = [0, 1, 2, 3, 4, 5, 6, 7, 9, 10];
    every_combination(&m, &buffers, 2, |m| feed(m, b"\n"));
    every_combination(&m, &buffers, 2, finish);
    for which in buffers {
        every_combination(&m, &[which], 3, |m| feed(m, b"\n"));
        every_combination(&m, &[which], 3, finish);
    }
}

/// A buffer is refused even where the frame or line would fit, and where what is to be read is garbled as well.
#[test]
fn of_the_line_calls() {
    let m = any_memory(&mut Dice::new(17_500_000));
    let kept = Fields { number: 1, answer: b'K', depots: 1, chain: 0, pairs: 0, searches: 1 };
    for (input, frame) in [(&b"010500\n"[..], &[1, 5, 0][..]), (b"020500\n", &[2, 5, 0]), (b"040500\n", &[4, 5, 0]), (b"", b"")] {
        every_combination(&m, &[8], 3, |m| read(m, input));
        every_combination(&m, &[9], 3, |m| write(m, frame));
    }
    every_combination(&m, &[10], 3, |m| report(m, kept));
}
