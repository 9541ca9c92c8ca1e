//! Where the two maps have to agree: old lines give what they gave, and what is larger is empty.
use crate::inputs::lines::some_input;
use crate::inputs::{Dice, Growth, SHAPES};
use crate::plain::lines::{line_of, notice_of_line, Notice};
use crate::plain::memory::{Marks, Memory, Searched};
use crate::plain::opening::Opened;
use crate::plain::stream::{answer, output_of};
use crate::plain::words::bits_of_table;
use crate::plain::{Map, NARROW, WIDE};
use crate::steps::some_codes;
use std::collections::BTreeSet;

/// Old lines, good and bad, print the same on both maps, in whatever order the codes open: all ties
/// go by code. Rules out ties by rows, and an old line that is garbled.
#[test]
fn old_lines_print_the_same() {
    let mut accepted = 0;
    for seed in 0..300 {
        let mut dice = Dice::new(66_000_000 + seed);
        let size = 1 + dice.below(60);
        let input = some_input(&mut dice, size);
        let reports = output_of(&NARROW, &input);
        accepted += reports.lines().filter(|line| !line.contains(" R")).count();
        assert_eq!(output_of(&WIDE, &input), reports, "seed {seed}");
    }
    assert!(accepted > 5_000, "{accepted}");
}

/// The same words in the first 256 places of each row and table, marks under their own names, and
/// nothing behind.
fn assert_alike(narrow: &(Map, Option<Opened>), wide: &(Map, Option<Opened>)) {
    let (small, large) = (Memory::of(&narrow.0), Memory::of(&wide.0));
    let padded = |row: &[u64]| [row, &[0; 4]].concat();
    assert_eq!((large.number, large.chain, large.count), (small.number, small.chain, small.count));
    assert_eq!((&large.open, &large.yards), (&padded(&small.open), &padded(&small.yards)));
    for (larger, smaller) in [(&large.links, &small.links), (&large.pairs, &small.pairs)] {
        assert_eq!(bits_of_table(8, larger), bits_of_table(4, smaller));
    }
    let [small, large] = [narrow, wide].map(|(map, opened)| {
        opened.as_ref().map(|Opened { letter, work }| {
            let searched = work.last.as_ref().map(|distances| Searched::of(map.shape, &map.rows, distances));
            (*letter, Marks::of(map.shape, &map.rows, work), searched.expect("a search"))
        })
    });
    let (Some((small_letter, small, found)), Some((letter, large, larger))) = (small, large) else { return };
    assert_eq!(letter, small_letter);
    let wider = |&mark: &u16| match mark {
        256 => 65_534,
        257 => 65_533,
        row => row,
    };
    assert_eq!(large.skips[..256], small.skips.iter().map(wider).collect::<Vec<_>>());
    assert_eq!((&large.bounds[..256], &larger.hops[..256]), (&small.bounds[..], &found.hops[..]));
    assert_eq!((larger.even, larger.odd), (padded(&found.even), padded(&found.odd)));
    assert!(large.skips[256..].iter().all(|&mark| mark == 65_533));
    assert!(large.bounds[256..].iter().chain(&larger.hops[256..]).all(|&n| n == 65_535));
}

/// Codes 0 to 255 that open in rising order have the rows of the narrow map: every word and place
/// is the same.
#[test]
fn rising_codes_stand_alike() {
    let mut done = 0;
    for seed in 0..60 {
        let mut dice = Dice::new(67_000_000 + seed);
        let size = if seed % 20 == 0 { 256 } else { 1 + dice.below(40) };
        let shape = dice.pick(&SHAPES);
        let mut growth = Growth::in_order(&mut dice, shape, (0..256).collect());
        if dice.once_in(2) {
            growth = growth.with_yards(&mut dice);
        }
        let (mut narrow, mut wide) = (Map::of_shape(&NARROW), Map::of_shape(&WIDE));
        for i in 0..size {
            let mut lines = vec![growth.line(&mut dice, i, size)];
            if dice.once_in(3) {
                lines.push(line_of(&[2, dice.below(i + 1) as u8, dice.below(i + 1) as u8]).into_bytes());
            }
            for line in lines {
                let [small, large] = [&mut narrow, &mut wide].map(|map| answer(map, &line));
                assert_eq!(small.0, large.0);
                if size < 256 || dice.once_in(40) {
                    done += usize::from(small.1.is_some());
                    assert_alike(&(narrow.clone(), small.1), &(wide.clone(), large.1));
                }
            }
        }
    }
    assert!(done > 900, "{done}");
}

/// Codes that are spread over 16 bits in their order: two-byte frames print what one-byte frames of
/// the narrow map do, and the network is the same under other names. Rules out a code cut to one
/// byte, and bytes in the wrong order.
#[test]
fn codes_under_other_names() {
    for seed in 0..150 {
        let mut dice = Dice::new(68_000_000 + seed);
        let mut names = BTreeSet::from([0, 65_535]);
        while names.len() < 256 {
            names.insert(dice.below(65_536));
        }
        let names: Vec<usize> = names.into_iter().collect();
        let named = |codes: &[usize]| codes.iter().map(|&code| names[code]).collect::<Vec<_>>();
        let size = 1 + dice.below(50);
        let (mut old, mut new) = (Vec::new(), Vec::new());
        for line in some_input(&mut dice, size).split_inclusive(|&b| b == 0x0A) {
            let Some(notice) = notice_of_line(&NARROW, line) else { continue };
            let other = match notice {
                Notice::Opening { is_yard, code, neighbours } => {
                    Notice::Opening { is_yard, code: names[code], neighbours: named(&neighbours) }
                }
                Notice::Link(first, second) => Notice::Link(names[first], names[second]),
                Notice::Closing(_) => unreachable!("no line closes a depot there"),
            };
            old.extend_from_slice(line);
            new.extend(line_of(&other.frame(2)).into_bytes());
        }
        assert_eq!(output_of(&WIDE, &new), output_of(&NARROW, &old), "seed {seed}");
        let [before, after] = [(&NARROW, &old), (&WIDE, &new)].map(|(shape, input)| {
            let mut map = Map::of_shape(shape);
            input.split_inclusive(|&b| b == 0x0A).for_each(|line| drop(answer(&mut map, line)));
            map
        });
        let bits: Vec<(usize, usize)> = before.network.bits().map(|(u, v)| (names[u], names[v])).collect();
        assert_eq!(after.network.bits().collect::<Vec<_>>(), bits);
        let pairs = before.figures.pairs.iter().map(|&(u, v)| (names[u], names[v]));
        assert!(pairs.eq(after.figures.pairs.iter().copied()) && before.figures.chain == after.figures.chain);
    }
}

/// One network by openings in two orders: figures are equal by code, rows and tables are not.
#[test]
fn orders_of_arrival() {
    let mut differ = 0;
    for seed in 0..100 {
        let mut dice = Dice::new(69_000_000 + seed);
        let size = 4 + dice.below(30);
        let codes = some_codes(&mut dice, 40);
        let shape = dice.pick(&SHAPES);
        let growth = Growth::in_order(&mut dice, shape, codes);
        let network = growth.network(&mut dice, size);
        let [one, other] = [(); 2].map(|()| {
            // any order in which each depot but the first is beside one that is open
            let mut map = Map::of_shape(&WIDE);
            let mut waiting: Vec<usize> = network.open.iter().copied().collect();
            dice.shuffle(&mut waiting);
            while let Some(place) = waiting
                .iter()
                .position(|&code| map.network.open.is_empty() || network.beside(code).iter().any(|v| map.network.open.contains(v)))
            {
                let code = waiting.remove(place);
                let beside: Vec<usize> = network.beside(code).iter().copied().filter(|v| map.network.open.contains(v)).collect();
                map.open(code, &beside).unwrap_or_else(|refusal| panic!("refused with {refusal}"));
            }
            assert!(waiting.is_empty());
            map
        });
        assert_eq!((&one.network, &one.figures), (&other.network, &other.figures));
        differ += usize::from(Memory::of(&one).links != Memory::of(&other).links);
    }
    assert!(differ > 80, "{differ}");
}
