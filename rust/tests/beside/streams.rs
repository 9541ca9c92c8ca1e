//! The stream: pieces of many sizes, little room for reports, damaged maps, the last lines.
use crate::both::{empty, feed, finish};
use crate::expected::{NUMBER, RECORD, TABLE};
use crate::inputs::lines::{link_line, some_input, some_line};
use crate::inputs::{Dice, Growth, SHAPES};
use crate::lent::{Buffer, Lent, SIZES};
use crate::maps::{any_memory, damage, true_map, DAMAGES};
use crate::plain::TODAY;
use crate::tally::Tally;

fn begun(dice: &mut Dice) -> Lent {
    let mut m = any_memory(dice);
    assert_eq!(empty(&mut m), 0);
    (m.lines, m.held) = (0, 0);
    m
}

/// Feeds an input in pieces, with an `out` of `room` bytes, and answers all reports.
fn run(m: &mut Lent, dice: &mut Dice, input: &[u8], piece: usize, room: usize) -> Vec<u8> {
    let mut reports = Vec::new();
    let mut at = 0;
    while at < input.len() {
        m.out = Buffer::new(dice.bytes(room + 5));
        m.set_lent(10, room);
        let length = (1 + dice.below(piece)).min(input.len() - at);
        assert_eq!(feed(m, &input[at..at + length]), 0);
        if m.used == 0 {
            break;
        }
        at += m.used;
        reports.extend_from_slice(&m.out.data[..m.written]);
    }
    assert_eq!(finish(m), 0);
    reports.extend_from_slice(&m.out.data[..m.written]);
    reports
}

#[test]
fn pieces_of_many_sizes() {
    for seed in 0..200 {
        let mut dice = Dice::new(11_000_000 + seed);
        let size = 1 + dice.below(if seed % 2 == 0 { 4 } else { 24 });
        let input = some_input(&mut dice, size);
        // the whole input in one piece, all reports in one buffer
        let mut m = begun(&mut dice);
        m.out = Buffer::new(dice.bytes(48 * input.len() + 48));
        assert_eq!((feed(&mut m, &input), m.used), (0, input.len()));
        let mut whole = m.out.data[..m.written].to_vec();
        assert_eq!(finish(&mut m), 0);
        whole.extend_from_slice(&m.out.data[..m.written]);
        let lines = whole.iter().filter(|&&b| b == 0x0A).count();
        assert_eq!(lines as u32, m.lines);
        let (record, links, pairs) = (m.record.data[..RECORD].to_vec(), m.links.data[..TABLE].to_vec(), m.pairs.data[..TABLE].to_vec());
        for (piece, room) in [(1, 48), (7, 95), (40, 96), (600, 200), (5_000, 1_000)] {
            // a call compares all memory, so that few bytes a call are for short inputs
            if input.len() > 60 * piece {
                continue;
            }
            let mut m = begun(&mut dice);
            assert_eq!(run(&mut m, &mut dice, &input, piece, room), whole);
            assert_eq!((&m.record.data[..RECORD], &m.links.data[..TABLE], &m.pairs.data[..TABLE]), (&record[..], &links[..], &pairs[..]));
        }
    }
}

#[test]
fn growths_of_256_depots() {
    for (seed, shape) in SHAPES.into_iter().enumerate() {
        let mut dice = Dice::new(12_000_000 + seed as u64);
        let growth = Growth::some(&mut dice, shape);
        let mut input = Vec::new();
        for i in 0..256 {
            input.extend(growth.line(&mut dice, i, 256));
        }
        let mut m = begun(&mut dice);
        m.out = Buffer::new(dice.bytes(48 * 257));
        assert_eq!(feed(&mut m, &input), 0);
        assert_eq!((m.used, m.lines, m.record.data[NUMBER]), (input.len(), 256, 256));
    }
}

/// A stream that goes on from any map, with any bytes held, lines answered and pieces; many are refused.
#[test]
fn from_any_memory() {
    let mut tally = Tally::new();
    for seed in 0..2_000 {
        let mut dice = Dice::new(13_000_000 + seed);
        let (mut m, network) = true_map(&mut dice);
        if dice.once_in(2) {
            let way = dice.below(DAMAGES);
            damage(&mut dice, &mut m, &network, way);
        }
        match dice.below(6) {
            0 => m.lines = 999_999,
            1 => m.lines = dice.pick(&[1_000_000, 1_000_001, u32::MAX]),
            _ => {}
        }
        match dice.below(6) {
            0 => m.held = TODAY.line + dice.below(3),
            1 => m.held = dice.pick(&[usize::MAX, 1 << 32]),
            2 => m.held = 0,
            3 => {
                // a whole line is held, as no stream holds it
                let line = some_line(&mut dice);
                m.held = line.len().min(TODAY.line);
                m.line.data[..m.held].copy_from_slice(&line[..m.held]);
            }
            _ => {}
        }
        let mut piece = Vec::new();
        let open: Vec<u8> = network.open.iter().map(|&code| code as u8).collect();
        for _ in 0..dice.below(5) {
            // a link of open depots, or any line
            if !open.is_empty() && dice.once_in(3) {
                piece.extend(link_line(dice.pick(&open), dice.pick(&open)));
            } else {
                piece.extend(some_line(&mut dice));
            }
        }
        let room = 48 + dice.below(150);
        m.out = Buffer::new(dice.bytes(room));
        tally.count(feed(&mut m.clone(), &piece));
        tally.count(finish(&mut m.clone()));
        if dice.once_in(2) {
            let which = dice.pick(&[0, 1, 2, 3, 4, 5, 6, 7, 9, 10]);
            let lent = dice.pick(&[0, SIZES[which] - 1]);
            m.set_lent(which, lent);
            assert_eq!(feed(&mut m, &piece), 1);
            assert_eq!(finish(&mut m), 1);
        }
    }
    tally.assert_all(&[0, 1, 2, 3], 50);
}

#[test]
fn the_last_lines() {
    let mut dice = Dice::new(14_000_000);
    let mut m = begun(&mut dice);
    m.lines = 999_998;
    m.out = Buffer::new(dice.bytes(500));
    let input = b"010000\n01010100\n01020101\n0103";
    assert_eq!(feed(&mut m, input), 0);
    assert_eq!((m.used, m.lines, m.held), (16, 1_000_000, 0));
    assert_eq!(&m.out.data[..m.written], b"999999 K 1 0 0 1\n1000000 G 2 1 1 1\n");
    assert_eq!(feed(&mut m, &input[16..]), 0);
    assert_eq!((m.used, m.written), (0, 0));
    // a stretch that is held after the last line is none
    m.held = 4;
    assert_eq!(finish(&mut m), 0);
    assert_eq!((m.written, m.lines, m.held), (0, 1_000_000, 4));
}
