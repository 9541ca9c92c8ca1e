//! Yards, by cases worked by hand in all memory that a call is lent: what a yard's opening leaves, a last layer of yards alone, yards in rounds, links of
//! yards, and figures that are false but sound. That every other call goes on with yards is tried where the call is.
use crate::both::{empty, feed, link, nearest, open, open_yard, reckon, search, summary, within};
use crate::expected::{bits_of_table, network, store_figures, store_map, CHAIN, RECORD, YARDS};
use crate::inputs::Dice;
use crate::lent::{Buffer, Lent};
use crate::maps::any_memory;
use crate::plain::{Figures, Map, Network};
use crate::truth::{assert_opened, assert_reckoned};
use std::collections::BTreeSet;

fn emptied() -> Lent {
    let mut m = any_memory(&mut Dice::new(60_000_000));
    assert_eq!(empty(&mut m), 0);
    (m.lines, m.held) = (0, 0);
    m
}

/// A map of these depots and links, with true figures, of which these are yards.
fn map_of(links: &[(usize, usize)], yards: &[usize]) -> Lent {
    let mut network = Network::empty();
    for &(u, v) in links {
        network.open.extend([u, v]);
        network.link(u, v);
    }
    network.yards.extend(yards);
    let mut m = emptied();
    store_map(&mut m, &Map::true_of(network));
    m
}

fn path(size: usize, yards: &[usize]) -> Lent {
    map_of(&(1..size).map(|v| (v - 1, v)).collect::<Vec<_>>(), yards)
}

/// The same map with other figures.
fn stored(mut m: Lent, chain: usize, pairs: &[(usize, usize)]) -> Lent {
    store_figures(&mut m, &Figures { chain, pairs: pairs.iter().copied().collect() });
    m
}

/// chain and pairs
fn figures(m: &Lent) -> (u64, Vec<(usize, usize)>) {
    (m.record.data[CHAIN], bits_of_table(&m.pairs.data).into_iter().collect())
}

/// The last four words of the record, in all of which a yard can be; emptying zeroes them.
#[test]
fn where_yards_stand() {
    let mut m = emptied();
    assert_eq!(open_yard(&mut m, 5, &[]), b'K');
    for (code, beside) in [(70, 5), (140, 70), (255, 140)] {
        assert_eq!(open_yard(&mut m, code, &[beside]), b'K');
    }
    assert_eq!(open(&mut m, 6, &[5]), b'K');
    assert_eq!(m.record.data[YARDS..RECORD], [1 << 5, 1 << 6, 1 << 12, 1 << 63]);
    assert_eq!(m.record.data[..YARDS], [3 << 5, 1 << 6, 1 << 12, 1 << 63, 5, 0, 0]);
    // a code is open however it opened
    assert_eq!((open(&mut m, 255, &[5]), open_yard(&mut m, 255, &[5]), open_yard(&mut m, 6, &[])), (5, 5, 5));
    assert_eq!(empty(&mut m), 0);
    assert_eq!(m.record.data[..RECORD], [0; RECORD]);
}

/// The first yard is searched from, and has nobody to deliver to.
#[test]
fn the_first_opening_is_a_yard() {
    let mut m = emptied();
    assert_eq!((open_yard(&mut m, 77, &[]), m.searches, figures(&m)), (b'K', 1, (0, vec![])));
    assert_eq!((m.skips.data[77], m.bounds.data[77], m.skips.data[76], m.bounds.data[76]), (256, 0, 257, 65_535));
    assert_eq!((m.hops.data[77], m.hops.data[76], m.even.data[1], m.odd.data[1]), (0, 65_535, 1 << 13, 0));
    assert_eq!((search(&mut m, 77), m.eccentricity, m.depth), (0, 0, 0));
    assert_eq!((reckon(&mut m), m.searches, figures(&m)), (0, 1, (0, vec![])));
}

/// Rows and both numbers of a search whose last layer is yards alone: the depth says which row has it, also where the eccentricity's parity is the other.
#[test]
fn a_last_layer_of_yards_alone() {
    // depot 0, yard 1
    let mut m = path(2, &[1]);
    assert_eq!((search(&mut m, 0), m.eccentricity, m.depth), (0, 0, 1));
    assert_eq!((m.even.data[0], m.odd.data[0], &m.hops.data[..3]), (1, 2, &[0, 1, 65_535][..]));
    // the depots 0 and 1 and behind them the yards 2 and 3
    let mut m = path(4, &[2, 3]);
    assert_eq!((search(&mut m, 0), m.eccentricity, m.depth, m.even.data[0], m.odd.data[0]), (0, 1, 3, 4, 8));
    assert_eq!((search(&mut m, 1), m.eccentricity, m.depth, m.even.data[0], m.odd.data[0]), (0, 1, 2, 8, 1 + 4));
    assert_eq!((search(&mut m, 3), m.eccentricity, m.depth, m.even.data[0], m.odd.data[0]), (0, 3, 3, 2, 1));
    assert_eq!((search(&mut m, 2), m.eccentricity, m.depth, m.even.data[0], m.odd.data[0]), (0, 2, 2, 1, 2 + 8));
    assert_eq!((within(&mut m, 0, 2), m.count, m.odd.data[0]), (0, 3, 8));
    assert_eq!((nearest(&mut m, 0, &[3, 2]), m.found, m.distance), (0, 2, 2));
    // an opening leaves such rows too: depot 4 beside 0 is four from yard 3, and two from depot 1
    assert_eq!((open(&mut m, 4, &[0]), m.bounds.data[4], figures(&m)), (b'G', 2, (2, vec![(1, 4)])));
    assert_eq!((m.hops.data[3], m.even.data[0], m.odd.data[0]), (4, 8, 4));
}

/// Yards alone, and one depot among them: everybody is searched, and nothing is a chain.
#[test]
fn nobody_to_deliver_to() {
    let mut m = path(3, &[0, 1, 2]);
    assert_eq!((reckon(&mut m), m.searches, figures(&m)), (0, 3, (0, vec![])));
    assert_eq!((&m.skips.data[..4], &m.bounds.data[..4]), (&[256, 256, 256, 257][..], &[0, 0, 0, 65_535][..]));
    assert_eq!((summary(&mut m), link(&mut m, 0, 2), m.searches), (15, b'K', 2));
    let mut m = map_of(&[(0, 1), (0, 2), (0, 3)], &[0, 1, 3]);
    assert_eq!((reckon(&mut m), m.searches, figures(&m)), (0, 4, (0, vec![])));
    assert_eq!((&m.skips.data[..4], &m.bounds.data[..4]), (&[256; 4][..], &[1, 2, 0, 2][..]));
    assert_eq!((summary(&mut m), link(&mut m, 1, 2), m.searches), (15, b'K', 2));
    assert_eq!((m.bounds.data[1], m.bounds.data[2], m.hops.data[2], figures(&m)), (1, 0, 0, (0, vec![])));
}

/// The yard 5 closes the path of five to a ring of six: candidate 2, which the yard, three from 2, does not raise.
#[test]
fn a_yard_that_closes_a_ring() {
    let mut m = path(5, &[]);
    assert_eq!((open_yard(&mut m, 5, &[0, 4]), m.searches), (b'S', 6));
    assert_eq!(figures(&m), (3, vec![(0, 3), (1, 4)]));
    assert_eq!((&m.skips.data[..7], &m.bounds.data[..7]), (&[256, 256, 256, 256, 256, 256, 257][..], &[3, 3, 2, 3, 3, 3, 65_535][..]));
    // 4 is searched last
    assert_eq!((&m.hops.data[..7], m.even.data[0], m.odd.data[0]), (&[2, 3, 2, 1, 0, 1, 65_535][..], 1 + 4, 2));
    assert_opened(&m, 4, 5, b'S');
}

/// The yard 9 beside 2 and 6 of the path of nine: it is the first reference, and six depots are skipped by its bounds.
#[test]
fn a_yard_that_shortens_the_chain() {
    let mut m = path(9, &[]);
    assert_eq!((open_yard(&mut m, 9, &[2, 6]), m.searches), (b'S', 4));
    assert_eq!(figures(&m), (6, vec![(0, 8)]));
    assert_eq!(m.skips.data[..11], [256, 9, 9, 9, 256, 9, 9, 9, 256, 256, 257]);
    assert_eq!(m.bounds.data[..11], [6, 5, 4, 5, 4, 5, 4, 5, 6, 3, 65_535]);
    assert_eq!(m.hops.data[..11], [6, 5, 4, 5, 4, 3, 2, 1, 0, 3, 65_535]);
    assert_eq!((m.even.data[0], m.odd.data[0]), (1, 2 + 8));
    assert_opened(&m, 8, 9, b'S');
}

/// Rule 5.6 with a yard for 4, which is skipped as it was; with a yard for 6, which is searched last and raises nothing, though its eccentricity is above the
/// chain; and the same beside 4, where it is as the chain and adds nothing.
#[test]
fn yards_in_rounds() {
    let mut m = path(7, &[4]);
    assert_eq!((reckon(&mut m), m.searches, figures(&m)), (0, 6, (6, vec![(0, 6)])));
    assert_eq!((&m.skips.data[..7], &m.bounds.data[..7]), (&[256, 256, 256, 256, 3, 256, 256][..], &[6, 5, 4, 3, 4, 5, 6][..]));
    assert_reckoned(&m);
    let mut m = path(7, &[6]);
    assert_eq!((reckon(&mut m), m.searches, figures(&m)), (0, 7, (5, vec![(0, 5)])));
    assert_eq!((&m.skips.data[..7], &m.bounds.data[..7]), (&[256; 7][..], &[5, 4, 3, 3, 4, 5, 6][..]));
    assert_eq!((m.hops.data[6], m.even.data[0], m.odd.data[0]), (0, 1, 2));
    assert_reckoned(&m);
    let mut m = map_of(&[(0, 1), (1, 2), (2, 3), (3, 4), (4, 5), (4, 6)], &[6]);
    assert_eq!((reckon(&mut m), m.searches, figures(&m)), (0, 7, (5, vec![(0, 5)])));
    assert_eq!((&m.skips.data[..7], &m.bounds.data[..7]), (&[256; 7][..], &[5, 4, 3, 3, 4, 5, 5][..]));
}

/// Between the depots 0 and 4 three yards: a link of the first and the third, of the second and 4, of 0 and 4.
#[test]
fn links_of_yards() {
    let mut m = path(5, &[1, 2, 3]);
    assert_eq!((link(&mut m, 3, 1), m.searches, figures(&m)), (b'S', 5, (3, vec![(0, 4)])));
    assert_eq!((&m.skips.data[..5], &m.bounds.data[..5]), (&[256; 5][..], &[3, 2, 2, 2, 3][..]));
    assert_eq!((link(&mut m, 2, 4), m.searches, figures(&m)), (b'K', 2, (3, vec![(0, 4)])));
    assert_eq!((link(&mut m, 0, 4), m.searches, figures(&m)), (b'S', 5, (1, vec![(0, 4)])));
    assert_eq!((&m.skips.data[..5], &m.bounds.data[..5]), (&[256; 5][..], &[1, 2, 2, 2, 1][..]));
    assert_eq!(network(&m).yards, BTreeSet::from([1, 2, 3]));
}

/// A chain of 0 is kept by a yard, and its pairs stay; an eccentricity that is the stored chain or above it keeps and adds nothing; a chain that nothing has is
/// left without pairs.
#[test]
fn yards_on_figures_that_are_false() {
    let mut m = stored(path(2, &[]), 0, &[(0, 1)]);
    assert_eq!((open_yard(&mut m, 2, &[1]), m.searches, figures(&m)), (b'K', 1, (0, vec![(0, 1)])));
    let mut m = stored(path(2, &[]), 0, &[]);
    assert_eq!((open_yard(&mut m.clone(), 2, &[1]), open(&mut m, 2, &[1])), (b'K', b'G'));
    let mut m = stored(path(3, &[]), 3, &[]);
    assert_eq!((open_yard(&mut m, 3, &[0]), m.searches, figures(&m)), (b'S', 4, (2, vec![(0, 2)])));
    let mut m = stored(path(3, &[]), 3, &[(0, 2)]);
    assert_eq!((open_yard(&mut m, 3, &[0]), m.searches, figures(&m)), (b'K', 1, (3, vec![(0, 2)])));
    let mut m = stored(path(3, &[]), 1, &[(0, 2)]);
    assert_eq!((open_yard(&mut m, 3, &[2]), m.searches, figures(&m)), (b'K', 1, (1, vec![(0, 2)])));
    let mut m = stored(emptied(), 9, &[]);
    assert_eq!((open_yard(&mut m, 7, &[]), m.searches, figures(&m)), (b'S', 1, (0, vec![])));
    let mut m = stored(path(2, &[]), 9, &[(0, 1)]);
    assert_eq!((open_yard(&mut m, 2, &[0, 1]), m.searches, figures(&m)), (b'S', 3, (2, vec![])));
    let mut m = stored(path(2, &[0, 1]), 9, &[]);
    assert_eq!((open(&mut m, 2, &[1]), m.searches, figures(&m)), (b'S', 3, (0, vec![])));
}

/// Depot, yard, yard, depot as a stream, and a yard that would be a shorter way.
#[test]
fn a_stream_with_yards() {
    let input = b"010000\n04010100\n04020101\n01030102\n0404020003\n04050103\n0405010\n";
    let reports = "1 K 1 0 0 1\n2 K 2 0 0 1\n3 K 3 0 0 1\n4 G 4 3 1 1\n5 S 5 2 1 5\n6 K 6 2 1 1\n7 R9 6 2 1 0\n";
    let mut m = emptied();
    m.out = Buffer::new(vec![b'.'; 500]);
    assert_eq!((feed(&mut m, input), m.used), (0, input.len()));
    assert_eq!(String::from_utf8_lossy(&m.out.data[..m.written]), reports);
    assert_eq!((network(&m).yards, figures(&m)), (BTreeSet::from([1, 2, 4, 5]), (2, vec![(0, 3)])));
}
