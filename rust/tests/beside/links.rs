//! Links between two open depots: on every network of up to five depots and on others by chance, with true figures and with false but sound ones, between
//! openings and batches, as calls and as lines; and cases worked by hand. What a link leaves is held to a search from every depot as well.
use crate::both::{self, empty, feed, open, open_as, open_batch, read, reckon, write};
use crate::expected::{bits_of_table, network, store_figures, store_map, CHAIN, COUNT, NUMBER};
use crate::inputs::growths::some_size;
use crate::inputs::lines::{link_line, notice_line, opening_line};
use crate::inputs::{Dice, Growth, SHAPES};
use crate::lent::{Buffer, Lent, SIZES};
use crate::maps::{any_figures, any_memory, damage, true_map, DAMAGES};
use crate::plain::lines::line_of;
use crate::plain::network::Pairs;
use crate::plain::{Figures, Map, Network};
use crate::tally::Tally;
use crate::truth::{assert_linked, assert_linked_falsely};
use std::collections::BTreeSet;

/// The link, and the same with its codes the other way round.
fn link(m: &mut Lent, first: u8, second: u8) -> u8 {
    let mut turned = m.clone();
    let answer = both::link(m, first, second);
    assert_eq!(both::link(&mut turned, second, first), answer);
    assert!(turned == *m, "{first} and {second} differ from {second} and {first}");
    answer
}

// ---- every network of a few depots

/// Codes in all four words of a row.
const CODES: [u8; 5] = [60, 161, 6, 107, 208];

fn all_pairs(size: usize) -> Vec<(usize, usize)> {
    let mut codes: Vec<usize> = CODES[..size].iter().map(|&c| c.into()).collect();
    codes.sort();
    codes.iter().flat_map(|&u| codes.iter().filter(move |&&v| u < v).map(move |&v| (u, v))).collect()
}

fn sets_of(pairs: &[(usize, usize)]) -> impl Iterator<Item = Pairs> + '_ {
    (0..1 << pairs.len()).map(|bits: usize| (0..pairs.len()).filter(|i| bits >> i & 1 == 1).map(|i| pairs[i]).collect())
}

/// Every network of so many depots that hangs together.
fn networks(size: usize) -> Vec<Network> {
    let made = |links: Pairs| {
        let mut network = Network::empty();
        network.open = CODES[..size].iter().map(|&c| c.into()).collect();
        links.into_iter().for_each(|(u, v)| network.link(u, v));
        network
    };
    sets_of(&all_pairs(size)).map(made).filter(|network| !network.is_apart()).collect()
}

#[test]
fn every_link_of_up_to_five_depots() {
    let mut m = any_memory(&mut Dice::new(26_000_000));
    let mut tally = Tally::new();
    let mut count = 0;
    for network in (0..=5).flat_map(networks) {
        count += 1;
        store_map(&mut m, &Map::true_of(network.clone()));
        for &(u, v) in &all_pairs(network.open.len()) {
            let mut next = m.clone();
            let answer = link(&mut next, u as u8, v as u8);
            assert_eq!(answer == 14, network.are_linked(u, v));
            if answer != 14 {
                assert_linked(&next, m.record.data[CHAIN], u as u8, v as u8, answer);
            }
            tally.count(answer);
        }
        for code in [0, 6, 60, 107, 161, 208, 255] {
            tally.count(link(&mut m, code, code));
            assert_eq!(link(&mut m, code, 5), 4);
        }
    }
    // the numbers of connected labelled graphs
    assert_eq!(count, 1 + 1 + 1 + 4 + 38 + 728);
    tally.assert_only(&[4, 13, 14, b'K', b'S']);
    println!("{} kept, {} shrank", tally.times(b'K'), tally.times(b'S'));
}

/// The network with every choice of yards among its depots.
fn with_yards(network: Network) -> impl Iterator<Item = Network> {
    let codes: Vec<usize> = network.open.iter().copied().collect();
    (0..1 << codes.len()).map(move |bits: usize| {
        let yards = (0..codes.len()).filter(|i| bits >> i & 1 == 1).map(|i| codes[i]).collect();
        Network { yards, ..network.clone() }
    })
}

/// With every choice of yards, of which there may be none.
#[test]
fn every_link_of_up_to_four_depots_and_yards() {
    let mut m = any_memory(&mut Dice::new(26_050_000));
    let mut tally = Tally::new();
    for network in (0..=4).flat_map(networks).flat_map(with_yards) {
        store_map(&mut m, &Map::true_of(network.clone()));
        for &(u, v) in &all_pairs(network.open.len()) {
            let mut next = m.clone();
            let answer = link(&mut next, u as u8, v as u8);
            assert_eq!(answer == 14, network.are_linked(u, v));
            if answer != 14 {
                assert_linked(&next, m.record.data[CHAIN], u as u8, v as u8, answer);
            }
            tally.count(answer);
        }
    }
    tally.assert_only(&[14, b'K', b'S']);
    println!("{} kept, {} shrank", tally.times(b'K'), tally.times(b'S'));
}

/// Every set of pairs and every chain of a few and the greatest: the empty set and 0 among them.
fn every_link_on_false_figures(m: &mut Lent, network: &Network, tally: &mut Tally) {
    let all = all_pairs(network.open.len());
    let ends: Vec<(usize, usize)> = all.iter().copied().filter(|&(u, v)| network.delivers(u) && network.delivers(v)).collect();
    store_map(m, &Map::of(Figures::default(), network.clone()));
    for pairs in sets_of(&ends) {
        for chain in [0, 1, 2, 3, 4, 5, 255] {
            store_figures(m, &Figures { chain, pairs: pairs.clone() });
            for &(u, v) in all.iter().filter(|&&(u, v)| !network.are_linked(u, v)) {
                let mut next = m.clone();
                let letter = link(&mut next, u as u8, v as u8);
                assert_linked_falsely(&next, m, u as u8, v as u8, letter);
                assert!(chain != 0 || letter == b'K');
                tally.count(letter);
            }
        }
    }
}

#[test]
fn every_link_of_up_to_four_depots_on_false_figures() {
    let mut m = any_memory(&mut Dice::new(26_100_000));
    let mut tally = Tally::new();
    for network in (3..=4).flat_map(networks) {
        every_link_on_false_figures(&mut m, &network, &mut tally);
    }
    tally.assert_only(b"KS");
    println!("{} kept, {} shrank", tally.times(b'K'), tally.times(b'S'));
}

#[test]
fn every_link_of_three_depots_and_some_of_four_with_yards_on_false_figures() {
    let mut m = any_memory(&mut Dice::new(26_150_000));
    let mut tally = Tally::new();
    for network in networks(3).into_iter().chain(networks(4).into_iter().step_by(3)).flat_map(with_yards) {
        every_link_on_false_figures(&mut m, &network, &mut tally);
    }
    tally.assert_only(b"KS");
    println!("{} kept, {} shrank", tally.times(b'K'), tally.times(b'S'));
}

// ---- by chance

/// Two codes for this set of open ones: mostly open, far too often linked.
fn some_ends(dice: &mut Dice, open: &BTreeSet<usize>) -> (u8, u8) {
    let codes: Vec<u8> = open.iter().map(|&c| c as u8).collect();
    let some = |dice: &mut Dice| if codes.is_empty() || dice.once_in(12) { dice.byte() } else { dice.pick(&codes) };
    let first = some(dice);
    (first, if dice.once_in(12) { first } else { some(dice) })
}

/// A link as some history has it: now and then one of its buffers is short, and then it is refused with that.
fn some_link(dice: &mut Dice, m: &mut Lent) -> (u8, u8, u8) {
    let (first, second) = some_ends(dice, &network(m).open);
    if dice.once_in(20) {
        let mut short = m.clone();
        let which = dice.below(8);
        let lent = dice.below(SIZES[which]);
        short.set_lent(which, lent);
        return (first, second, link(&mut short, first, second));
    }
    (first, second, link(m, first, second))
}

/// A line of the depot that comes next, or of one that is open already, or of a closed neighbour.
fn some_opening(dice: &mut Dice, growth: &Growth, next: usize, size: usize) -> (u8, Vec<u8>) {
    let code = growth.order[next] as u8;
    match dice.below(12) {
        0 => (growth.order[dice.below(next + 1)] as u8, growth.neighbours(dice, next, size)),
        1 => (code, vec![code]),
        2 => (code, Vec::new()),
        _ => (code, growth.neighbours(dice, next, size)),
    }
}

/// Openings of depots and yards, batches and links in turns, refused ones among them, from the empty map. Each call takes what the one before left.
#[test]
fn histories_with_links() {
    let (mut links, mut openings) = (Tally::new(), Tally::new());
    for seed in 0..400 {
        let mut dice = Dice::new(26_200_000 + seed);
        let size = if seed % 40 == 0 { 256 } else { 4 + dice.below(40) };
        let shape = dice.pick(&SHAPES);
        let growth = Growth::some(&mut dice, shape);
        let mut m = any_memory(&mut dice);
        assert_eq!(empty(&mut m), 0);
        let mut next = 0;
        while next < size {
            let chain = m.record.data[CHAIN];
            if dice.once_in(3) {
                let (first, second, answer) = some_link(&mut dice, &mut m);
                if b"KS".contains(&answer) && (size < 256 || dice.once_in(8)) {
                    assert_linked(&m, chain, first, second, answer);
                }
                links.count(answer);
                continue;
            }
            let (code, neighbours) = some_opening(&mut dice, &growth, next, size);
            let is_yard = growth.yards.contains(&code.into());
            if next > 0 && dice.once_in(6) {
                assert_eq!(open_batch(&mut m, &opening_line(is_yard, code.into(), &neighbours)), 0);
            } else {
                openings.count(open_as(&mut m, is_yard, code, &neighbours));
            }
            next += usize::from(network(&m).open.len() > next);
        }
        let (record, pairs) = (m.record.clone(), m.pairs.clone());
        assert_eq!(reckon(&mut m), 0);
        assert_eq!((m.record, m.pairs), (record, pairs), "the figures at the end");
    }
    links.assert_only(&[1, 4, 13, 14, b'K', b'S']);
    links.assert_all(&[1, 4, 13, 14, b'K', b'S'], 100);
    openings.assert_all(&[5, 6, 8, b'G', b'K', b'S'], 100);
    println!("{} kept, {} shrank", links.times(b'K'), links.times(b'S'));
}

/// The same from figures that are false but sound, and made so again between the calls.
#[test]
fn histories_from_false_figures() {
    let mut tally = Tally::new();
    for seed in 0..300 {
        let mut dice = Dice::new(26_250_000 + seed);
        let shape = dice.pick(&SHAPES);
        let growth = Growth::some(&mut dice, shape);
        let (begun, size) = (2 + dice.below(20), 40);
        let mut m = any_memory(&mut dice);
        let grown = growth.network(&mut dice, begun);
        store_map(&mut m, &Map::of(any_figures(&mut dice, &grown), grown));
        for next in begun..size {
            if dice.once_in(3) {
                let figures = any_figures(&mut dice, &network(&m));
                store_figures(&mut m, &figures);
            }
            let before = m.clone();
            let (first, second, answer) = some_link(&mut dice, &mut m);
            if b"KS".contains(&answer) {
                assert_linked_falsely(&m, &before, first, second, answer);
            }
            tally.count(answer);
            let (code, neighbours) = (growth.order[next] as u8, growth.neighbours(&mut dice, next, size));
            open_as(&mut m, growth.yards.contains(&code.into()), code, &neighbours);
        }
    }
    tally.assert_only(&[1, 4, 13, 14, b'K', b'S']);
    tally.assert_all(&[1, 4, 13, 14, b'K', b'S'], 100);
    println!("{} kept, {} shrank", tally.times(b'K'), tally.times(b'S'));
}

/// Two histories with the same openings and links, the links in another order and the codes of each the other way round: links, chain and pairs are equal.
#[test]
fn links_in_another_order() {
    let mut shrank = 0;
    for seed in 0..150 {
        let mut dice = Dice::new(26_270_000 + seed);
        let (mut one, network) = true_map(&mut dice);
        let mut other = one.clone();
        if network.open.len() < 2 {
            continue;
        }
        let mut ends: Vec<(u8, u8)> = (0..12).map(|_| some_ends(&mut dice, &network.open)).collect();
        let forward: Vec<u8> = ends.iter().map(|&(first, second)| both::link(&mut one, first, second)).collect();
        dice.shuffle(&mut ends);
        for &(first, second) in &ends {
            both::link(&mut other, second, first);
        }
        assert_eq!((&one.record, &one.links, &one.pairs), (&other.record, &other.links, &other.pairs));
        shrank += forward.iter().filter(|&&answer| answer == b'S').count();
    }
    assert!(shrank > 50, "{shrank} links made the chain shorter");
}

/// Link after link until all depots are linked, or many are.
#[test]
fn links_one_after_the_other() {
    let mut tally = Tally::new();
    for seed in 0..150 {
        let mut dice = Dice::new(26_300_000 + seed);
        let (mut m, before) = true_map(&mut dice);
        if before.open.len() < 2 {
            continue;
        }
        let codes: Vec<usize> = before.open.iter().copied().collect();
        let mut ends: Vec<(usize, usize)> = codes.iter().flat_map(|&u| codes.iter().map(move |&v| (u, v))).filter(|p| p.0 < p.1).collect();
        dice.shuffle(&mut ends);
        for (u, v) in ends.into_iter().take(60) {
            let chain = m.record.data[CHAIN];
            let answer = link(&mut m, u as u8, v as u8);
            if answer != 14 {
                assert_linked(&m, chain, u as u8, v as u8, answer);
            }
            tally.count(answer);
        }
    }
    tally.assert_only(&[14, b'K', b'S']);
    tally.assert_all(&[b'K', b'S'], 200);
    println!("{} kept, {} shrank", tally.times(b'K'), tally.times(b'S'));
}

#[test]
fn links_on_false_but_sound_figures() {
    let mut tally = Tally::new();
    for seed in 0..1_500 {
        let mut dice = Dice::new(26_400_000 + seed);
        let shape = dice.pick(&SHAPES);
        let size = some_size(&mut dice).min(if seed % 10 == 0 { 256 } else { 40 });
        let grown = Growth::some(&mut dice, shape).network(&mut dice, size);
        let mut m = any_memory(&mut dice);
        store_map(&mut m, &Map::of(any_figures(&mut dice, &grown), grown));
        // what it leaves is sound again, so the next link goes on from it
        for _ in 0..3 {
            let before = m.clone();
            let (first, second) = some_ends(&mut dice, &network(&m).open);
            let answer = link(&mut m, first, second);
            if b"KS".contains(&answer) {
                assert_linked_falsely(&m, &before, first, second, answer);
            }
            tally.count(answer);
        }
    }
    tally.assert_only(&[4, 13, 14, b'K', b'S']);
    tally.assert_all(&[4, 13, 14, b'K', b'S'], 50);
    println!("{} kept, {} shrank", tally.times(b'K'), tally.times(b'S'));
}

#[test]
fn links_of_damaged_maps() {
    let mut tally = Tally::new();
    for seed in 0..60 {
        for way in 0..=DAMAGES {
            let mut dice = Dice::new(26_500_000 + 100 * seed + way as u64);
            let (mut m, network) = true_map(&mut dice);
            damage(&mut dice, &mut m, &network, way);
            let (first, second) = some_ends(&mut dice, &network.open);
            tally.count(link(&mut m, first, second));
        }
    }
    tally.assert_all(&[2, 3, 4, 13, 14, b'K'], 5);
}

/// Each buffer in turn at every critical size, on maps that are sound, spoilt or apart: short comes before everything else.
#[test]
fn links_in_short_and_long_buffers() {
    let mut tally = Tally::new();
    for seed in 0..20 {
        for which in 0..8 {
            let size = SIZES[which];
            for lent in [0, 1, size / 2, size - 1, size, size + 1, size + 3] {
                let mut dice = Dice::new(26_550_000 + 1000 * seed + 10 * which as u64);
                let (mut m, network) = true_map(&mut dice);
                if seed % 3 == 0 {
                    let way = dice.below(DAMAGES);
                    damage(&mut dice, &mut m, &network, way);
                }
                m.set_lent(which, lent);
                let (first, second) = some_ends(&mut dice, &network.open);
                let answer = link(&mut m, first, second);
                assert_eq!(answer == 1, lent < size);
                tally.count(answer);
            }
        }
    }
    tally.assert_all(&[1, 2, 4, 14, b'K', b'S'], 10);
}

// ---- worked by hand

/// A map of these depots and links, with true figures.
fn map_of(links: &[(usize, usize)]) -> Lent {
    let mut network = Network::empty();
    for &(u, v) in links {
        network.open.extend([u, v]);
        network.link(u, v);
    }
    let mut m = any_memory(&mut Dice::new(26_600_000));
    store_map(&mut m, &Map::true_of(network));
    m
}

fn path(size: usize) -> Lent {
    map_of(&(1..size).map(|v| (v - 1, v)).collect::<Vec<_>>())
}

/// chain and pairs
fn figures(m: &Lent) -> (u64, Vec<(usize, usize)>) {
    (m.record.data[CHAIN], bits_of_table(&m.pairs.data).into_iter().collect())
}

/// The path of seven becomes a ring: every eccentricity is 3, no bound is below it, and 5 is searched last.
#[test]
fn a_path_that_closes() {
    let mut m = path(7);
    assert_eq!((link(&mut m, 0, 6), m.searches), (b'S', 7));
    assert_eq!(figures(&m), (3, vec![(0, 3), (0, 4), (1, 4), (1, 5), (2, 5), (2, 6), (3, 6)]));
    assert_eq!(m.skips.data[..8], [256, 256, 256, 256, 256, 256, 256, 257]);
    assert_eq!(m.bounds.data[..8], [3, 3, 3, 3, 3, 3, 3, 65_535]);
    assert_eq!(m.hops.data[..8], [2, 3, 3, 2, 1, 0, 1, 65_535]);
    assert_eq!((m.even.data[0], m.odd.data[0]), (1 + 8, 2 + 4));
}

/// The path of nine with a short cut about its middle: the candidate is 7, and the search from 3 gives 5 the bound 5. It is searched all the same, and
/// then gives 6 and 7 theirs; the bound of 4 is 5 from either end, and names 3.
#[test]
fn skipping_starts_after_both_searches() {
    let mut m = path(9);
    assert_eq!((link(&mut m, 5, 3), m.searches), (b'S', 4));
    assert_eq!(figures(&m), (7, vec![(0, 8)]));
    assert_eq!(m.skips.data[..10], [256, 3, 3, 256, 3, 256, 5, 5, 256, 257]);
    assert_eq!(m.bounds.data[..10], [7, 6, 5, 4, 5, 4, 5, 6, 7, 65_535]);
    assert_eq!(m.hops.data[..10], [7, 6, 5, 4, 4, 3, 2, 1, 0, 65_535]);
    assert_eq!((m.even.data[0], m.odd.data[0]), (2, 1));
}

/// A star whose first two leaves are linked: their pair goes, the five others stay, and the search that is left is the second leaf's.
#[test]
fn a_link_that_keeps_the_chain() {
    let mut m = map_of(&[(0, 1), (0, 2), (0, 3), (0, 4)]);
    assert_eq!((link(&mut m, 1, 2), m.searches), (b'K', 2));
    assert_eq!(figures(&m), (2, vec![(1, 3), (1, 4), (2, 3), (2, 4), (3, 4)]));
    assert_eq!(m.skips.data[..6], [257, 256, 256, 257, 257, 257]);
    assert_eq!(m.bounds.data[..6], [65_535, 2, 2, 65_535, 65_535, 65_535]);
    assert_eq!(m.hops.data[..6], [1, 1, 0, 2, 2, 65_535]);
    assert_eq!((m.even.data[0], m.odd.data[0]), (8 + 16, 1 + 2));
}

/// False figures: a chain of 0 is kept, and its pairs stay; without pairs an end whose eccentricity is the stored chain keeps nothing; of a pair whose ways
/// differ the shorter counts, whichever end has it; and a candidate that no search reaches is left without a pair.
#[test]
fn links_on_figures_that_are_false() {
    let stored = |m: &Lent, chain, pairs: &[(usize, usize)]| {
        let mut m = m.clone();
        store_figures(&mut m, &Figures { chain, pairs: pairs.iter().copied().collect() });
        m
    };
    let mut m = stored(&path(3), 0, &[(0, 1)]);
    assert_eq!((link(&mut m, 0, 2), m.searches, figures(&m)), (b'K', 2, (0, vec![(0, 1)])));
    let mut m = stored(&path(3), 0, &[]);
    assert_eq!((link(&mut m, 0, 2), m.searches, figures(&m)), (b'K', 2, (0, vec![])));
    let mut m = stored(&path(4), 2, &[]);
    assert_eq!((link(&mut m, 0, 2), m.searches, figures(&m)), (b'S', 4, (2, vec![(0, 3), (1, 3)])));
    // 4 and 5 are three links from one end and four from the other, so that the way is six; their distance is 2, and the true chain 4
    for (near, far) in [(0, 9), (9, 0)] {
        let ring = map_of(&[(near, 1), (1, 2), (2, 4), (2, 5), (2, 6), (6, 7), (7, far)]);
        for (chain, letter) in [(5, b'K'), (6, b'K'), (7, b'S'), (8, b'S'), (255, b'S')] {
            let mut m = stored(&ring, chain, &[(4, 5)]);
            assert_eq!(link(&mut m, 0, 9), letter);
            assert_eq!(figures(&m), if letter == b'K' { (chain as u64, vec![(4, 5)]) } else { (6, vec![]) });
        }
    }
}

/// One fault more each time: linked, itself, absent, apart, spoilt (figures, then links too), short.
#[test]
fn the_first_refusal_of_several() {
    let mut m = path(3);
    assert_eq!((link(&mut m, 0, 1), link(&mut m, 1, 1), link(&mut m, 1, 7), link(&mut m, 7, 7)), (14, 13, 4, 4));
    // depot 7 without links; a pair that nobody counts; a row that is short
    m.record.data[0] |= 1 << 7;
    m.record.data[NUMBER] = 4;
    assert_eq!((link(&mut m, 0, 1), link(&mut m, 1, 1), link(&mut m, 8, 8)), (3, 3, 3));
    m.record.data[COUNT] += 1;
    assert_eq!((link(&mut m, 0, 1), link(&mut m, 1, 1), link(&mut m, 8, 8), link(&mut m, 0, 2)), (2, 2, 2, 2));
    m.record.data[NUMBER] = 3;
    assert_eq!((link(&mut m, 0, 1), link(&mut m, 1, 1), link(&mut m, 8, 8), link(&mut m, 0, 2)), (2, 2, 2, 2));
    for which in 0..8 {
        let mut short = m.clone();
        short.set_lent(which, SIZES[which] - 1);
        assert_eq!((link(&mut short, 0, 1), link(&mut short, 8, 8)), (1, 1));
        // and where nothing else is wrong
        let mut short = path(3);
        short.set_lent(which, SIZES[which] - 1);
        assert_eq!(link(&mut short, 0, 2), 1);
    }
}

/// An empty map and a single depot take no link.
#[test]
fn links_of_no_two_depots() {
    let mut m = any_memory(&mut Dice::new(26_700_000));
    assert_eq!(empty(&mut m), 0);
    assert_eq!((link(&mut m, 0, 0), link(&mut m, 0, 1)), (4, 4));
    assert_eq!(open(&mut m, 0, &[]), b'K');
    assert_eq!((link(&mut m, 0, 0), link(&mut m, 0, 1), link(&mut m, 1, 1)), (13, 4, 4));
}

// ---- lines

/// Three bytes of kind 02 and no others, whatever the codes.
#[test]
fn frames_of_links() {
    let mut m = any_memory(&mut Dice::new(26_800_000));
    for first in 0..=255 {
        for second in [0, 1, 9, first, 127, 255] {
            let frame = [2, first, second];
            assert_eq!((write(&mut m, &frame), m.length), (0, 7));
            assert_eq!(m.line.data[..7], *line_of(&frame).as_bytes());
            assert_eq!((read(&mut m, line_of(&frame).as_bytes()), m.length, m.used), (0, 3, 7));
            assert_eq!(m.frame.data[..3], frame);
        }
    }
    for line in [
        "02\n",
        "0201\n",
        "02010\n",
        "020105",
        "0201050\n",
        "02010500\n",
        "02550154\n",
        "0200020001\n",
        "02000a\n",
        " 020001\n",
        "020001\r\n",
    ] {
        assert_eq!(read(&mut m, line.as_bytes()), 9, "{line}");
    }
    for frame in [&[2][..], &[2, 1], &[2, 1, 5, 0], &[2, 0, 1, 0], &[2, 1, 5, 6, 7, 8, 9, 10], &[2; 258]] {
        assert_eq!(write(&mut m, frame), 9, "{frame:?}");
    }
    assert_eq!((read(&mut m, b"02FF0A\n020001\n"), m.length, m.used), (0, 3, 7));
    assert_eq!(m.frame.data[..3], [2, 255, 10]);
}

/// A path of five that closes, and the refusals of a link.
#[test]
fn a_stream_with_links() {
    let input =
        b"020000\n010000\n01010100\n01020101\n01030102\n01040103\n020400\n020004\n020303\n020305\n020505\n02000\n02000400\n020103\n";
    let reports =
        "1 R4 0 0 0 0\n2 K 1 0 0 1\n3 G 2 1 1 1\n4 G 3 2 1 1\n5 G 4 3 1 1\n6 G 5 4 1 1\n7 S 5 2 5 5\n8 R14 5 2 5 0\n9 R13 5 2 5 0\n\
                   10 R4 5 2 5 0\n11 R4 5 2 5 0\n12 R9 5 2 5 0\n13 R9 5 2 5 0\n14 K 5 2 4 2\n";
    let mut m = begun(&mut Dice::new(26_810_000), 1_000);
    assert_eq!((feed(&mut m, input), m.used), (0, input.len()));
    assert_eq!(String::from_utf8_lossy(&m.out.data[..m.written]), reports);
    // what the last link left: the search from 3
    assert_eq!((m.skips.data[1], m.skips.data[3], m.hops.data[3], m.hops.data[0]), (256, 256, 0, 2));
}

/// A stream at its begin, with so much room for reports.
fn begun(dice: &mut Dice, room: usize) -> Lent {
    let mut m = any_memory(dice);
    assert_eq!(empty(&mut m), 0);
    (m.lines, m.held) = (0, 0);
    m.out = Buffer::new(dice.bytes(room));
    m
}

/// Openings of depots and yards and links, as calls and as the lines of a stream: the maps, the marks and the last search are the same.
#[test]
fn calls_and_lines() {
    let mut tally = Tally::new();
    for seed in 0..60 {
        let mut dice = Dice::new(26_820_000 + seed);
        let size = 3 + dice.below(30);
        let shape = dice.pick(&SHAPES);
        let growth = Growth::some(&mut dice, shape);
        let mut fed = begun(&mut dice, 100);
        let mut called = fed.clone();
        for i in 0..size {
            let (code, neighbours) = (growth.order[i], growth.neighbours(&mut dice, i, size));
            let is_yard = growth.yards.contains(&code);
            open_as(&mut called, is_yard, code as u8, &neighbours);
            assert_eq!(feed(&mut fed, &opening_line(is_yard, code, &neighbours)), 0);
            while dice.once_in(2) {
                let (first, second) = some_ends(&mut dice, &network(&called).open);
                let answer = both::link(&mut called, first, second);
                tally.count(answer);
                assert_eq!((feed(&mut fed, &link_line(first, second)), fed.used), (0, 7));
                let said = String::from_utf8_lossy(&fed.out.data[..fed.written]).into_owned();
                let letter = if b"KS".contains(&answer) { char::from(answer).to_string() } else { format!("R{answer}") };
                assert_eq!(said.split(' ').nth(1), Some(letter.as_str()));
                assert_eq!((&fed.record, &fed.links, &fed.pairs), (&called.record, &called.links, &called.pairs));
                assert_eq!((&fed.hops, &fed.bounds, &fed.skips), (&called.hops, &called.bounds, &called.skips));
                assert_eq!((&fed.even, &fed.odd), (&called.even, &called.odd));
            }
        }
    }
    tally.assert_only(&[4, 13, 14, b'K', b'S']);
    tally.assert_all(&[4, 13, 14, b'K', b'S'], 20);
}

/// In a batch a link is garbled, wherever it stands, and refuses the lines about it; one that would be refused as a link too.
#[test]
fn a_link_in_a_batch() {
    let mut m = path(3);
    let lines = [notice_line(3, &[2]), notice_line(4, &[3]), notice_line(5, &[0])];
    for ends in [[0, 2], [2, 0], [0, 1], [1, 1], [7, 0]] {
        for place in 0..=lines.len() {
            let mut batch = lines.to_vec();
            batch.insert(place, link_line(ends[0], ends[1]));
            assert_eq!(open_batch(&mut m, &batch.concat()), 9, "the link of {ends:?} at {place}");
        }
        assert_eq!(open_batch(&mut m, &link_line(ends[0], ends[1])), 9);
        assert_eq!(open_batch(&mut m, &link_line(ends[0], ends[1]).repeat(64)), 9);
        assert_eq!(open_batch(&mut m, &link_line(ends[0], ends[1]).repeat(65)), 11);
    }
    assert_eq!((network(&m).open.len(), network(&m).are_linked(0, 2)), (3, false));
    assert_eq!((open_batch(&mut m, &lines.concat()), m.left_count), (0, 0));
    assert_eq!(link(&mut m, 0, 2), b'S');
    assert_eq!(empty(&mut m), 0);
    assert_eq!(open_batch(&mut m, b"020000\n"), 12);
}
