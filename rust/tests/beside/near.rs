//! The depots within so many handovers, and the nearest of a list: on true maps of every shape, damaged maps and memory of no map; every bound of k that
//! matters, and lists that are empty, long, closed, repeated or hold the start.
use crate::both::{empty, nearest, open, search, within};
use crate::expected::{network, CHAIN, COUNT, NUMBER, TABLE};
use crate::inputs::Dice;
use crate::lent::{Lent, SIZES};
use crate::maps::{any_memory, damage, true_map, DAMAGES};
use crate::tally::Tally;

/// About the greatest distance, the mark of a closed code, and the ends.
const BOUNDS: [u32; 12] = [0, 1, 2, 3, 254, 255, 256, 65_534, 65_535, 65_536, u32::MAX - 1, u32::MAX];

/// A list for these open codes.
fn some_list(dice: &mut Dice, codes: &[u8], closed: &[u8], start: u8) -> Vec<u8> {
    let some =
        |dice: &mut Dice, from: &[u8], n: usize| -> Vec<u8> { (0..n).filter(|_| !from.is_empty()).map(|_| dice.pick(from)).collect() };
    let n = 1 + dice.below(5);
    let mut list = match dice.below(9) {
        0 => Vec::new(),
        1 => some(dice, closed, n),
        2 => some(dice, codes, n),
        3 => [some(dice, codes, n), some(dice, closed, n)].concat(),
        4 => [some(dice, closed, n), vec![start; n]].concat(),
        5 => (0..=255).collect(),
        6 => {
            let n = 257 + dice.below(400);
            dice.bytes(n)
        }
        7 => some(dice, codes, 1).repeat(n),
        _ => dice.bytes(n),
    };
    if dice.once_in(2) {
        dice.shuffle(&mut list);
    }
    list
}

/// What the answers mean, held to the distances that a search leaves.
fn assert_near(m: &Lent, code: u8, k: u32) {
    let codes = &m.codes.data[..usize::from(m.count)];
    assert!(codes.windows(2).all(|two| two[0] < two[1]), "rising");
    assert!(codes.contains(&code), "the depot itself");
    if k == 0 {
        assert_eq!(codes, [code]);
    }
    let open = network(m).open;
    for v in 0..=255u8 {
        let is_near = open.contains(&v.into()) && u32::from(m.hops.data[usize::from(v)]) <= k;
        assert_eq!(codes.contains(&v), is_near, "code {v} within {k}");
    }
}

#[test]
fn of_true_maps() {
    let (mut listed, mut chosen) = (Tally::new(), Tally::new());
    for seed in 0..300 {
        let mut dice = Dice::new(19_000_000 + seed);
        let (mut m, network) = true_map(&mut dice);
        let codes: Vec<u8> = network.open.iter().map(|&c| c as u8).collect();
        let closed: Vec<u8> = (0..=255).filter(|&c| !network.open.contains(&usize::from(c))).collect();
        for _ in 0..8 {
            let code = if codes.is_empty() || dice.once_in(5) { dice.byte() } else { dice.pick(&codes) };
            let k = if dice.once_in(3) { dice.below(20) as u32 } else { dice.pick(&BOUNDS) };
            let answer = within(&mut m, code, k);
            if answer == 0 {
                assert_near(&m, code, k);
            }
            listed.count(answer);
            let list = some_list(&mut dice, &codes, &closed, code);
            chosen.count(nearest(&mut m, code, &list));
        }
    }
    listed.assert_only(&[0, 4]);
    chosen.assert_only(&[0, 4, 10]);
    chosen.assert_all(&[0, 4, 10], 100);
}

/// Each bound from the ends and the middle of the longest path, whose last depots stand at exactly 254 and 255.
#[test]
fn every_bound_on_the_longest_path() {
    let mut m = any_memory(&mut Dice::new(19_500_000));
    assert_eq!(empty(&mut m), 0);
    for code in 0..=255u8 {
        open(&mut m, code, if code == 0 { vec![] } else { vec![code - 1] }.as_slice());
    }
    for code in [0, 1, 128, 254, 255u8] {
        for k in (0..260).chain(BOUNDS) {
            assert_eq!(within(&mut m, code, k), 0);
            let (low, high) = (u32::from(code).saturating_sub(k), (u32::from(code).saturating_add(k)).min(255));
            assert_eq!(u32::from(m.count), high - low + 1, "within {k} of {code}");
        }
    }
}

#[test]
fn of_damaged_maps() {
    let (mut listed, mut chosen) = (Tally::new(), Tally::new());
    for seed in 0..60 {
        for way in 0..=DAMAGES {
            let mut dice = Dice::new(20_000_000 + 100 * seed + way as u64);
            let (mut m, network) = true_map(&mut dice);
            damage(&mut dice, &mut m, &network, way);
            let codes: Vec<u8> = network.open.iter().map(|&c| c as u8).collect();
            let code = if codes.is_empty() || dice.once_in(4) { dice.byte() } else { dice.pick(&codes) };
            listed.count(within(&mut m, code, dice.pick(&BOUNDS)));
            let list = some_list(&mut dice, &codes, &[], code);
            chosen.count(nearest(&mut m, code, &list));
        }
    }
    listed.assert_all(&[0, 2, 3, 4], 20);
    chosen.assert_all(&[0, 2, 3, 4, 10], 20);
}

#[test]
fn of_no_map() {
    for seed in 0..50 {
        let mut m = any_memory(&mut Dice::new(21_000_000 + seed));
        assert_eq!((within(&mut m, 1, 1), nearest(&mut m, 1, &[2, 3])), (2, 2));
        // the empty map: no depot to ask from
        assert_eq!(empty(&mut m), 0);
        assert_eq!((within(&mut m, 1, u32::MAX), nearest(&mut m, 1, &[]), nearest(&mut m, 1, &[1])), (4, 4, 4));
    }
}

/// One fault more each time, and the lower number comes. The calls leave what a search leaves.
#[test]
fn the_first_refusal_of_several() {
    let mut m = any_memory(&mut Dice::new(22_000_000));
    assert_eq!(empty(&mut m), 0);
    open(&mut m, 10, &[]);
    open(&mut m, 20, &[10]);
    let mut searched = m.clone();
    assert_eq!(search(&mut searched, 10), 0);
    let mut listed = m.clone();
    assert_eq!((within(&mut listed, 10, 1), listed.count), (0, 2));
    assert_eq!((&listed.hops, &listed.even, &listed.odd), (&searched.hops, &searched.even, &searched.odd));
    let mut chosen = m.clone();
    assert_eq!((nearest(&mut chosen, 10, &[20, 30]), chosen.found, chosen.distance), (0, 20, 1));
    assert_eq!((&chosen.hops, &chosen.even, &chosen.odd), (&searched.hops, &searched.even, &searched.odd));
    // no listed depot is open; nor is the depot itself
    assert_eq!((nearest(&mut m, 10, &[30, 30]), nearest(&mut m, 10, &[])), (10, 10));
    assert_eq!((nearest(&mut m, 30, &[30]), nearest(&mut m, 30, &[]), within(&mut m, 30, 5)), (4, 4, 4));
    // depot 150 is open without a link; the number open is wrong; a row is short
    m.record.data[2] |= 1 << (150 - 128);
    m.record.data[NUMBER] = 3;
    assert_eq!((nearest(&mut m, 30, &[]), within(&mut m, 30, 5)), (3, 3));
    m.record.data[NUMBER] = 2;
    assert_eq!((nearest(&mut m, 30, &[]), within(&mut m, 30, 5)), (2, 2));
    m.set_lent(7, 3);
    assert_eq!((nearest(&mut m, 30, &[]), within(&mut m, 30, 5)), (1, 1));
}

/// Figures are not looked at.
#[test]
fn figures_do_not_matter() {
    let mut m = any_memory(&mut Dice::new(22_500_000));
    assert_eq!(empty(&mut m), 0);
    open(&mut m, 7, &[]);
    (m.record.data[CHAIN], m.record.data[COUNT]) = (u64::MAX, 9);
    m.pairs.data[..TABLE].fill(u64::MAX);
    assert_eq!((within(&mut m, 7, 0), nearest(&mut m, 7, &[7])), (0, 0));
}

/// 255 places are too few, though two codes are listed; what else stands in the memory is not asked for.
#[test]
fn the_places_for_the_codes() {
    let mut m = any_memory(&mut Dice::new(23_000_000));
    assert_eq!(empty(&mut m), 0);
    open(&mut m, 7, &[]);
    for which in [2, 4, 5, 8, 9, 10, 12, 13] {
        m.set_lent(which, 0);
    }
    for lent in [0, 1, 2, 255, 256, 257, 260] {
        m.set_lent(11, lent);
        assert_eq!(within(&mut m, 7, 3) == 1, lent < SIZES[11]);
        assert_eq!(nearest(&mut m, 7, &[7]), 0);
    }
}
