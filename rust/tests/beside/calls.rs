//! The calls on a map, by chance: lists of openings, true and false figures, damaged maps, any memory. Links are tried more closely in links.rs.
use crate::both::{empty, link, open, open_as, open_batch, open_yard, reckon, search, summary};
use crate::expected::{network, store_map, CHAIN, TABLE};
use crate::inputs::growths::some_size;
use crate::inputs::{Dice, Growth, SHAPES};
use crate::lent::SIZES;
use crate::maps::{any_figures, any_memory, damage, true_map, DAMAGES};
use crate::plain::Map;
use crate::tally::Tally;
use crate::truth::{assert_opened, assert_reckoned};
use std::collections::BTreeSet;

/// A notice for this set of open codes: most can be accepted, the others are refused in one way or in several.
fn some_notice(dice: &mut Dice, open: &BTreeSet<usize>) -> (u8, Vec<u8>) {
    let codes: Vec<u8> = open.iter().map(|&c| c as u8).collect();
    let closed: Vec<u8> = (0..=255u8).filter(|&c| !open.contains(&c.into())).collect();
    let mut code = if closed.is_empty() { dice.byte() } else { dice.pick(&closed) };
    let mut some = BTreeSet::new();
    if !codes.is_empty() {
        let most = if dice.once_in(8) { codes.len() } else { 3 };
        for _ in 0..1 + dice.below(most) {
            some.insert(dice.pick(&codes));
        }
    }
    let mut list: Vec<u8> = some.into_iter().collect();
    match dice.below(16) {
        0 if !codes.is_empty() => code = dice.pick(&codes),
        1 => list.clear(),
        2 => list.reverse(),
        3 => {
            if let Some(&last) = list.last() {
                list.push(last);
            }
        }
        4 => {
            list.push(code);
            list.sort();
        }
        5 => {
            list.push(dice.byte());
            list.sort();
        }
        6 => list = (0..=255).collect(),
        7 => {
            let n = dice.below(600);
            list = dice.bytes(n);
        }
        8 => {
            list.push(dice.byte());
            dice.shuffle(&mut list);
        }
        9 => code = dice.byte(),
        _ => {}
    }
    (code, list)
}

/// One list of openings from the empty map, with yards or without, some of its calls refused, some buffers short now and then.
fn run_list(seed: u64, size: usize, tally: &mut Tally) {
    let mut dice = Dice::new(seed);
    let shape = dice.pick(&SHAPES);
    let growth = Growth::some(&mut dice, shape);
    let mut m = any_memory(&mut dice);
    assert_eq!(empty(&mut m), 0);
    let mut next = 0;
    while next < size {
        // the next depot of the growth, or something between
        let (code, neighbours) = if dice.once_in(3) {
            let open_set = network(&m).open;
            some_notice(&mut dice, &open_set)
        } else {
            next += 1;
            (growth.order[next - 1] as u8, growth.neighbours(&mut dice, next - 1, size))
        };
        let is_yard = growth.yards.contains(&code.into());
        if dice.once_in(20) {
            let mut short = m.clone();
            let which = dice.below(8);
            let lent = dice.below(SIZES[which]);
            short.set_lent(which, lent);
            assert_eq!(open_as(&mut short, is_yard, code, &neighbours), 1);
            tally.count(1);
        }
        let chain = m.record.data[CHAIN];
        let answer = open_as(&mut m, is_yard, code, &neighbours);
        tally.count(answer);
        if b"GKS".contains(&answer) && (size <= 40 || dice.once_in(8)) {
            assert_opened(&m, chain, code, answer);
        }
    }
    let (record, pairs) = (m.record.clone(), m.pairs.clone());
    assert_eq!(reckon(&mut m), 0);
    assert_reckoned(&m);
    assert_eq!((m.record, m.pairs), (record, pairs));
}

#[test]
fn lists_of_openings() {
    let mut tally = Tally::new();
    for seed in 0..400 {
        let size = 4 + Dice::new(seed + 77_000).below(30);
        run_list(seed, size, &mut tally);
    }
    tally.assert_all(&[1, 5, 6, 7, 8, b'G', b'K', b'S'], 50);
}

#[test]
fn long_lists_of_openings() {
    let mut tally = Tally::new();
    for seed in 0..12 {
        run_list(900_000 + seed, 256, &mut tally);
    }
    tally.assert_all(&[5, b'G', b'K', b'S'], 10);
}

#[test]
fn searches_and_reckonings_of_true_maps() {
    let mut tally = Tally::new();
    for seed in 0..400 {
        let mut dice = Dice::new(1_000_000 + seed);
        let (mut m, _) = true_map(&mut dice);
        for _ in 0..6 {
            tally.count(search(&mut m, dice.byte()));
        }
        for code in network(&m).open {
            if dice.once_in(6) {
                tally.count(search(&mut m, code as u8));
            }
        }
        // a reckoning does not look at chain, pair count and pair table
        for word in [5, 6] {
            m.record.data[word] = dice.word();
        }
        for word in 0..TABLE {
            m.pairs.data[word] = dice.word();
        }
        assert_eq!(reckon(&mut m), 0);
        assert_reckoned(&m);
    }
    tally.assert_all(&[0, 4], 100);
}

#[test]
fn openings_on_false_but_sound_figures() {
    let mut tally = Tally::new();
    for seed in 0..1_500 {
        let mut dice = Dice::new(2_000_000 + seed);
        let shape = dice.pick(&SHAPES);
        let size = some_size(&mut dice).min(if seed % 10 == 0 { 256 } else { 40 });
        let grown = Growth::some(&mut dice, shape).network(&mut dice, size);
        let mut m = any_memory(&mut dice);
        store_map(&mut m, &Map::of(any_figures(&mut dice, &grown), grown));
        // what it leaves is sound again, so the next opening goes on from it
        for _ in 0..3 {
            let open_set = network(&m).open;
            let (code, neighbours) = some_notice(&mut dice, &open_set);
            tally.count(open_as(&mut m, dice.once_in(2), code, &neighbours));
        }
    }
    tally.assert_all(&[5, 6, 7, 8, b'G', b'K', b'S'], 50);
}

#[test]
fn damaged_maps() {
    let mut opened = Tally::new();
    let mut searched = Tally::new();
    let mut reckoned = Tally::new();
    for seed in 0..120 {
        for way in 0..=DAMAGES {
            let mut dice = Dice::new(3_000_000 + 100 * seed + way as u64);
            let (mut m, network) = true_map(&mut dice);
            damage(&mut dice, &mut m, &network, way);
            if dice.once_in(4) {
                let other = dice.below(DAMAGES);
                damage(&mut dice, &mut m, &network, other);
            }
            let (code, neighbours) = some_notice(&mut dice, &network.open);
            opened.count(open_as(&mut m.clone(), dice.once_in(2), code, &neighbours));
            searched.count(search(&mut m.clone(), dice.byte()));
            reckoned.count(reckon(&mut m.clone()));
            assert_eq!(empty(&mut m), 0);
        }
    }
    opened.assert_all(&[2, 3, b'G', b'K'], 20);
    opened.assert_all(&[5, 6, 7, 8], 5);
    searched.assert_all(&[0, 2, 3, 4], 20);
    reckoned.assert_all(&[0, 2, 3], 20);
}

#[test]
fn memory_of_no_map() {
    for seed in 0..200 {
        let mut dice = Dice::new(4_000_000 + seed);
        let mut m = any_memory(&mut dice);
        assert_eq!((open(&mut m, 1, &[2, 3]), open_yard(&mut m, 1, &[2, 3])), (2, 2));
        assert_eq!(link(&mut m, 1, 2), 2);
        assert_eq!(search(&mut m, 1), 2);
        assert_eq!(reckon(&mut m), 2);
        assert_eq!(empty(&mut m), 0);
    }
}

/// Each buffer in turn at every critical size, on maps that are sound, spoilt or apart.
#[test]
fn short_and_long_buffers() {
    let mut tally = Tally::new();
    for seed in 0..24 {
        for which in 0..8 {
            let size = SIZES[which];
            for lent in [0, 1, size / 2, size - 1, size, size + 1, size + 3] {
                let mut dice = Dice::new(5_000_000 + 1000 * seed + 10 * which as u64);
                let (mut m, network) = true_map(&mut dice);
                if seed % 3 != 0 {
                    let way = dice.below(DAMAGES);
                    damage(&mut dice, &mut m, &network, way);
                }
                m.set_lent(which, lent);
                let (code, neighbours) = some_notice(&mut dice, &network.open);
                let opened = open_as(&mut m.clone(), dice.once_in(2), code, &neighbours);
                assert_eq!(opened == 1, lent < size);
                let linked = link(&mut m.clone(), code, dice.byte());
                assert_eq!(linked == 1, lent < size);
                let batched = open_batch(&mut m.clone(), b"");
                assert_eq!(batched == 1, lent < size);
                let reckoned = reckon(&mut m.clone());
                assert_eq!(reckoned == 1, lent < size);
                let searched = search(&mut m.clone(), dice.byte());
                assert_eq!(searched == 1, lent < size && ![2, 4, 5].contains(&which));
                let emptied = empty(&mut m);
                assert_eq!(emptied == 1, lent < size && which < 3);
                for answer in [opened, linked, batched, reckoned, searched, emptied] {
                    tally.count(answer);
                }
            }
        }
    }
    tally.assert_all(&[0, 1, 2, 3], 20);
}

/// All buffers short, or all but one.
#[test]
fn several_short_buffers() {
    for seed in 0..300 {
        let mut dice = Dice::new(6_000_000 + seed);
        let (mut m, network) = true_map(&mut dice);
        for (which, size) in SIZES.into_iter().enumerate() {
            if dice.once_in(2) {
                let lent = dice.below(size);
                m.set_lent(which, lent);
            }
        }
        let (code, neighbours) = some_notice(&mut dice, &network.open);
        open(&mut m.clone(), code, &neighbours);
        open_yard(&mut m.clone(), code, &neighbours);
        link(&mut m.clone(), code, dice.byte());
        open_batch(&mut m.clone(), b"");
        search(&mut m.clone(), code);
        summary(&mut m.clone());
        reckon(&mut m.clone());
        empty(&mut m);
    }
}
