//! Histories of openings, links and closings under any codes, every word and every place held to
//! the rules by rows; up to 512 depots.
use crate::by_rows::ByRows;
use crate::inputs::{Dice, Growth, Shape, SHAPES};
use crate::plain::lines::Notice;
use crate::plain::network::Pairs;
use crate::plain::CLOSING;
use crate::steps::{assert_step, opening, some_codes, yard_opening, Held};

/// How often each letter came.
#[derive(Default, Debug)]
struct Letters([usize; 3]);

impl Letters {
    fn count(&mut self, letter: u8) {
        self.0[b"GKS".iter().position(|&l| l == letter).expect("a letter")] += 1;
    }

    fn assert_all(&self, least: usize) {
        assert!(self.0.iter().all(|&n| n >= least), "{self:?}");
    }
}

/// A growth under any codes, some of which are yards, with links between what is open, checked at
/// each step.
fn grow(dice: &mut Dice, shape: Shape, size: usize, letters: &mut Letters) -> Held {
    let order = some_codes(dice, size.max(40));
    let mut growth = Growth::in_order(dice, shape, order);
    if dice.once_in(2) {
        growth = growth.with_yards(dice);
    }
    let mut held = Held::empty();
    for i in 0..size {
        let neighbours = growth.codes_beside(dice, i, size);
        let code = growth.order[i];
        let notice = if growth.yards.contains(&code) { yard_opening(code, &neighbours) } else { opening(code, &neighbours) };
        let mut notices = vec![notice];
        if dice.once_in(3) {
            notices.push(Notice::Link(dice.pick(&growth.order[..=i]), dice.pick(&growth.order[..=i])));
        }
        for notice in notices {
            let before = held.memory.clone();
            if let Ok(opened) = held.try_take(&notice) {
                letters.count(opened.letter);
                assert_step(&before, &held, &notice, &opened);
            }
        }
    }
    assert_eq!(held.memory.number, size as u64);
    held
}

/// Rules out every tie that goes by row, a row out of turn, a pair whose ends go by code, a
/// reference that is a code: all differ under these orders.
#[test]
fn growths_by_chance() {
    let mut letters = Letters::default();
    for seed in 0..160 {
        let mut dice = Dice::new(60_000_000 + seed);
        let (shape, size) = (dice.pick(&SHAPES), 2 + dice.below(38));
        grow(&mut dice, shape, size, &mut letters);
    }
    letters.assert_all(100);
}

/// A network of a shape with so many depots, its figures found by openings that are not checked one
/// by one; and the last opening, which is.
fn large(seed: u64, shape: Shape, size: usize) -> Held {
    let mut dice = Dice::new(seed);
    let order = some_codes(&mut dice, size);
    let growth = Growth::in_order(&mut dice, shape, order);
    let mut held = Held::empty();
    for i in 0..size {
        let notice = opening(growth.order[i], &growth.codes_beside(&mut dice, i, size));
        if i + 1 < size {
            held.map.take(&notice).unwrap_or_else(|refusal| panic!("refused with {refusal}"));
            continue;
        }
        held.memory.store(&held.map);
        let before = held.memory.clone();
        let opened = held.take(&notice);
        assert_step(&before, &held, &notice, &opened);
    }
    held
}

/// Networks of 300 to 512 depots: rules out a width of four words anywhere, a chain or a hop of
/// eight bits, a row past the 256th that is not looked at.
#[test]
fn large_networks() {
    for (seed, shape, size) in [
        (61_000_000, Shape::Ring, 512),
        (61_000_001, Shape::Grid, 320),
        (61_000_002, Shape::Random(1), 512),
        (61_000_003, Shape::Regional, 448),
        (61_000_004, Shape::Shortcuts, 400),
        (61_000_005, Shape::Heap, 511),
        (61_000_006, Shape::Sparse, 300),
    ] {
        let mut held = large(seed, shape, size);
        // a link between two of them, a reckoning after a closing, and a closing that is refused or
        // not
        let codes: Vec<usize> = held.map.network.open.iter().copied().collect();
        let mut dice = Dice::new(seed + 100);
        let mut done = 0;
        while done < 2 {
            let notice = if done == 0 { Notice::Link(dice.pick(&codes), dice.pick(&codes)) } else { Notice::Closing(dice.pick(&codes)) };
            let before = held.memory.clone();
            if let Ok(opened) = held.try_take(&notice) {
                assert_step(&before, &held, &notice, &opened);
                done += 1;
            }
        }
    }
}

/// Sum, pairs and counts of the report, the depots within k and the nearest of a list, from
/// distances by rows. Rules out a list by rows, a tie by rows, and counts that end at 255.
#[test]
fn lists_and_reports() {
    for (seed, shape, size) in [(62_000_000, Shape::Path, 400), (62_000_001, Shape::Ring, 300), (62_000_002, Shape::Random(1), 320)] {
        let held = large(seed, shape, size);
        let rows = ByRows::of(&held.memory);
        let codes: Vec<usize> = held.memory.codes[..size].iter().map(|&code| code.into()).collect();
        let summary = held.map.network.summary(&CLOSING).expect("two depots deliver");
        assert_eq!((summary.mean.sum, summary.mean.pairs), rows.sum());
        assert_eq!(summary.counts.len(), 512);
        for e in 0..512 {
            let count = (0..size).filter(|&row| rows.eccentricity(row) == e).count();
            assert_eq!(usize::from(summary.counts[e]), count, "eccentricity {e}");
        }
        let mut dice = Dice::new(seed + 100);
        for k in [0, 1, 2, 3, 200, 255, 256, 399, 65_535, u32::MAX] {
            let from = dice.below(size);
            let mut near: Vec<usize> = (0..size).filter(|&v| rows.distance(from, v) as u64 <= k.into()).map(|v| codes[v]).collect();
            near.sort();
            assert_eq!(held.map.network.within(codes[from], k), near);
            // a list of open codes, some of them twice, with one that is closed
            let listed: Vec<usize> = (0..12).map(|_| dice.below(size)).collect();
            let best = listed.iter().map(|&v| (rows.distance(from, v), codes[v])).min().map(|(d, code)| (code, d));
            let closed = (0..).find(|code| !codes.contains(code)).expect("one is closed");
            let list: Vec<usize> = listed.iter().map(|&v| codes[v]).chain([closed]).collect();
            assert_eq!(held.map.network.nearest(codes[from], &list), best);
        }
    }
}

/// 512 depots in a path: chain 511 between the ends, in whatever rows they stand; then a link of
/// the two, which leaves 256.
#[test]
fn the_longest_path() {
    let mut held = large(63_000_000, Shape::Path, 512);
    assert_eq!((held.memory.chain, held.memory.count, held.pairs()), (511, 1, vec![(0, 511)]));
    let [first, last] = [0, 511].map(|row: usize| usize::from(held.memory.codes[row]));
    let (before, notice) = (held.memory.clone(), Notice::Link(last, first));
    let opened = held.take(&notice);
    assert_step(&before, &held, &notice, &opened);
    assert_eq!((opened.letter, held.memory.chain, held.memory.count), (b'S', 256, 256));
    let opposite: Pairs = (0..256).map(|u| (u, u + 256)).collect();
    assert_eq!(held.pairs(), opposite.into_iter().collect::<Vec<_>>());
}

/// 512 depots, each beside every other: 512 * 511 / 2 pairs, more than 16 bits count.
#[test]
fn all_linked() {
    let held = large(63_000_001, Shape::Whole, 512);
    assert_eq!((held.memory.chain, held.memory.count), (1, 130_816));
}
