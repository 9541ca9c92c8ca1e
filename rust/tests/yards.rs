//! Transit yards by the plain implementation: values that were worked out by hand, and growths held to the definitions after every step.
mod inputs;
mod plain;

use inputs::lines::some_input;
use inputs::Dice;
use plain::lines::{frame_of, notice_of};
use plain::network::{are_sound_figures, Pairs};
use plain::opening::{reckoning, Opened, Status, Work};
use plain::stream::{answer, output};
use plain::summary::Mean;
use plain::{survey, Figures, Map, Network, TODAY};
use std::collections::BTreeSet;

/// The network of these links and of the depots that they name, of which these are yards.
fn network(links: &[(usize, usize)], yards: &[usize]) -> Network {
    let mut network = Network::empty();
    for &(u, v) in links {
        network.open.extend([u, v]);
        network.link(u, v);
    }
    network.yards.extend(yards);
    network
}

/// The path of this many depots, from 0 on, of which these are yards.
fn path(size: usize, yards: &[usize]) -> Network {
    network(&(1..size).map(|v| (v - 1, v)).collect::<Vec<_>>(), yards)
}

/// A map of this network, with true figures.
fn map_of(network: Network) -> Map {
    Map::true_of(network)
}

/// The same network with other figures.
fn stored(network: Network, chain: usize, pairs: &[(usize, usize)]) -> Map {
    Map::of(Figures { chain, pairs: pairs.iter().copied().collect() }, network)
}

/// Chain, pairs and references, in their order.
fn found(work: &Work) -> (usize, Vec<(usize, usize)>, Vec<usize>) {
    (work.figures.chain, work.figures.pairs.iter().copied().collect(), work.references.clone())
}

/// The letter, and what was found.
fn done(opened: Result<Opened, u8>) -> (char, usize, Vec<(usize, usize)>, Vec<usize>) {
    let Opened { letter, work } = opened.unwrap_or_else(|refusal| panic!("refused with {refusal}"));
    let (chain, pairs, references) = found(&work);
    (letter.into(), chain, pairs, references)
}

/// The marks of the depots from 0 on, 256 for a searched one, and their bounds.
fn marks(work: &Work) -> (Vec<usize>, Vec<usize>) {
    let mark = |status: &Status| match *status {
        Status::Searched(e) => (256, e),
        Status::Skipped(bound, by) => (by, bound),
        Status::Remaining(_) => (257, 65_535),
    };
    work.status.values().map(mark).unzip()
}

fn gives(input: &str, reports: &str) {
    assert_eq!(output(input.as_bytes()), reports);
}

// ---- openings

/// A map may begin with a yard: nothing delivers, so that the chain is 0 and stays so. A yard is refused as a depot is.
#[test]
fn a_yard_opens_first() {
    gives("040000\n", "1 K 1 0 0 1\n");
    gives(
        "04000101\n0400020201\n040700\n040700\n010700\n040800\n0408020707\n0408010A\n04080107\n",
        "1 R8 0 0 0 0\n2 R7 0 0 0 0\n3 K 1 0 0 1\n4 R5 1 0 0 0\n5 R5 1 0 0 0\n6 R6 1 0 0 0\n7 R7 1 0 0 0\n8 R8 1 0 0 0\n9 K 2 0 0 1\n",
    );
}

/// The first depot that delivers has nobody to deliver to; the second, past a yard, is two away from it.
#[test]
fn a_depot_opens_among_yards() {
    gives("040000\n04010100\n01020101\n04030102\n01040103\n", "1 K 1 0 0 1\n2 K 2 0 0 1\n3 K 3 0 0 1\n4 K 4 0 0 1\n5 G 5 2 1 1\n");
}

/// A depot, two yards behind each other, and a depot behind them: the chain runs through the yards, and grows by three at once.
#[test]
fn a_chain_through_yards() {
    gives("010000\n04010100\n04020101\n01030102\n", "1 K 1 0 0 1\n2 K 2 0 0 1\n3 K 3 0 0 1\n4 G 4 3 1 1\n");
}

/// Depot 3 opens beside 0, behind which are two yards: the last of them is three away, and 0, the only one to deliver to, one.
#[test]
fn a_new_depot_does_not_reach_for_yards() {
    gives("010000\n04010100\n04020101\n01030100\n", "1 K 1 0 0 1\n2 K 2 0 0 1\n3 K 3 0 0 1\n4 G 4 1 1 1\n");
}

/// About depot 0 stand the depots 1, 3 and 4 and the yard 2, two from each other: a pair at the yard is none.
#[test]
fn a_yard_is_no_partner() {
    gives("010000\n01010100\n04020100\n01030100\n01040100\n", "1 K 1 0 0 1\n2 G 2 1 1 1\n3 K 3 1 1 1\n4 G 4 2 1 1\n5 K 5 2 3 1\n");
    assert_eq!(survey::followed(b"010000\n01010100\n04020100\n01030100\n").figures.pairs, Pairs::from([(1, 3)]));
}

/// A yard at an end of the path 0-1-2, three from the other end: it makes nothing grow.
#[test]
fn a_yard_makes_no_chain_grow() {
    let mut map = map_of(path(3, &[]));
    assert_eq!(done(map.open_yard(3, &[2])), ('K', 2, vec![(0, 2)], vec![3]));
    assert_eq!(done(map.open(4, &[3])), ('G', 4, vec![(0, 4)], vec![4]));
}

/// The yard 5 closes the path 0-1-2-3-4 to a ring of six: the pair 0, 4 is two apart now, so that the candidate is 2. The yard is three from 2, which raises
/// nothing; 0 raises the candidate to 3. Across the ring lie 0 and 3, 1 and 4, and 2 and the yard, which is no pair: 2 has eccentricity 2.
#[test]
fn a_yard_that_closes_a_ring() {
    let mut map = map_of(path(5, &[]));
    let opened = map.open_yard(5, &[0, 4]);
    let work = &opened.as_ref().ok().expect("it is opened").work;
    assert_eq!(marks(work), (vec![256; 6], vec![3, 3, 2, 3, 3, 3]));
    assert_eq!(done(opened), ('S', 3, vec![(0, 3), (1, 4)], vec![5, 0, 1, 2, 3, 4]));
    gives(
        "010000\n01010100\n01020101\n01030102\n01040103\n0405020004\n",
        "1 K 1 0 0 1\n2 G 2 1 1 1\n3 G 3 2 1 1\n4 G 4 3 1 1\n5 G 5 4 1 1\n6 S 6 3 2 6\n",
    );
}

/// The yard 9 beside 2 and 6 of the path of nine: 0 and 8 are six apart now. Its eccentricity is 3, and its bounds count: 2 and 6 are skipped at 4, and 1, 3, 5
/// and 7 at 5. 4, with bound 6, is searched before the two ends, which have fewer links.
#[test]
fn a_yard_that_shortens_the_chain() {
    let mut map = map_of(path(9, &[]));
    let opened = map.open_yard(9, &[2, 6]);
    let work = &opened.as_ref().ok().expect("it is opened").work;
    assert_eq!(marks(work), (vec![256, 9, 9, 9, 256, 9, 9, 9, 256, 256], vec![6, 5, 4, 5, 4, 5, 4, 5, 6, 3]));
    assert_eq!(done(opened), ('S', 6, vec![(0, 8)], vec![9, 4, 0, 8]));
}

// ---- searches

/// From some depot of a path at whose far end is a yard: the last layer is that yard, and deeper than the eccentricity, whose parity it need not have.
#[test]
fn a_last_layer_of_yards_alone() {
    for (size, yards, from, eccentricity, deep) in
        [(2, &[1][..], 0, 0, 1), (3, &[1, 2], 0, 0, 2), (4, &[2, 3], 0, 1, 3), (4, &[2, 3], 1, 1, 2), (4, &[0, 3], 3, 2, 3)]
    {
        let network = path(size, yards);
        let distances = network.distances(from);
        assert_eq!((network.eccentricity(&distances), distances.depth()), (eccentricity, deep), "from {from} of {size}, yards {yards:?}");
        assert_eq!(distances.layer(deep), BTreeSet::from([if from == 3 { 0 } else { size - 1 }]));
    }
}

/// A yard with the yards 1 and 3 and the depot 2 about it: whoever searches finds 2 alone to deliver to, and from 2 itself nobody is left.
#[test]
fn one_depot_among_yards() {
    let network = network(&[(0, 1), (0, 2), (0, 3)], &[0, 1, 3]);
    assert_eq!(network.figures(), Figures::default());
    let work = reckoning(&network);
    assert_eq!(found(&work), (0, vec![], vec![0, 1, 2, 3]));
    assert_eq!(marks(&work), (vec![256; 4], vec![1, 2, 0, 2]));
    assert_eq!(network.distances(2).depth(), 2);
    assert_eq!(network.summary(TODAY), None);
}

#[test]
fn yards_alone() {
    let network = path(3, &[0, 1, 2]);
    assert_eq!(network.figures(), Figures::default());
    let work = reckoning(&network);
    assert_eq!(found(&work), (0, vec![], vec![1, 0, 2]));
    assert_eq!(marks(&work), (vec![256; 3], vec![0, 0, 0]));
    assert_eq!(network.distances(0).depth(), 2);
    assert_eq!(network.summary(TODAY), None);
}

// ---- rounds

/// Rule 5.6 with a yard for depot 4: it is skipped as it was, and nothing else changes.
#[test]
fn a_yard_that_is_skipped() {
    let work = reckoning(&path(7, &[4]));
    assert_eq!(found(&work), (6, vec![(0, 6)], vec![1, 2, 3, 5, 0, 6]));
    assert_eq!(marks(&work), (vec![256, 256, 256, 256, 3, 256, 256], vec![6, 5, 4, 3, 4, 5, 6]));
    // beside the middle of the path the yard 7 makes that one the first reference, and is skipped by it at 4
    let mut more = path(7, &[7]);
    more.open.insert(7);
    more.link(3, 7);
    let work = reckoning(&more);
    assert_eq!(found(&work), (6, vec![(0, 6)], vec![3, 1, 5, 0, 6]));
    assert_eq!(marks(&work), (vec![256, 256, 3, 256, 3, 256, 256, 3], vec![6, 5, 4, 3, 4, 5, 6, 4]));
}

/// Rule 5.6 with a yard for depot 6: the path from 0 to 5 counts. The yard is searched last, and its eccentricity, 6, is above the chain, 5: it raises nothing.
/// Beside 4 its eccentricity is 5, as the chain: it adds nothing.
#[test]
fn a_yard_that_is_searched() {
    let work = reckoning(&path(7, &[6]));
    assert_eq!(found(&work), (5, vec![(0, 5)], vec![1, 2, 3, 4, 5, 0, 6]));
    assert_eq!(marks(&work), (vec![256; 7], vec![5, 4, 3, 3, 4, 5, 6]));
    let work = reckoning(&network(&[(0, 1), (1, 2), (2, 3), (3, 4), (4, 5), (4, 6)], &[6]));
    assert_eq!(found(&work), (5, vec![(0, 5)], vec![4, 1, 2, 3, 0, 5, 6]));
    assert_eq!(marks(&work), (vec![256; 7], vec![5, 4, 3, 3, 4, 5, 5]));
}

// ---- links

/// Between the depots 0 and 4 are three yards in a row. A link of the first and the third makes it three handovers, and both yards, two from either depot, are
/// searched first; a link of the middle one and 4 changes nothing; a link of 0 and 4 leaves one. The last is less than half of what was.
#[test]
fn links_of_yards() {
    let mut map = map_of(path(5, &[1, 2, 3]));
    assert_eq!(map.figures, Figures { chain: 4, pairs: Pairs::from([(0, 4)]) });
    let linked = map.link(3, 1);
    let work = &linked.as_ref().ok().expect("they are linked").work;
    assert_eq!(marks(work), (vec![256; 5], vec![3, 2, 2, 2, 3]));
    assert_eq!(done(linked), ('S', 3, vec![(0, 4)], vec![1, 3, 2, 0, 4]));
    assert_eq!(done(map.link(2, 4)), ('K', 3, vec![(0, 4)], vec![2, 4]));
    assert_eq!(done(map.link(0, 4)), ('S', 1, vec![(0, 4)], vec![0, 4, 1, 2, 3]));
    gives(
        "010000\n04010100\n04020101\n04030102\n01040103\n020301\n020204\n020004\n020103\n020202\n",
        "1 K 1 0 0 1\n2 K 2 0 0 1\n3 K 3 0 0 1\n4 K 4 0 0 1\n5 G 5 4 1 1\n6 S 5 3 1 5\n7 K 5 3 1 2\n8 S 5 1 1 5\n9 R14 5 1 1 0\n10 R13 5 1 1 0\n",
    );
}

// ---- false but sound figures

/// A chain of 0 is kept by a yard whatever stands beside it: its pairs stay, and so does that there are none, where a depot would have made it grow.
#[test]
fn a_yard_on_a_chain_of_0() {
    let mut map = stored(path(2, &[]), 0, &[(0, 1)]);
    assert_eq!(done(map.open_yard(2, &[1])), ('K', 0, vec![(0, 1)], vec![2]));
    assert_eq!(done(stored(path(2, &[]), 0, &[]).open_yard(2, &[1])), ('K', 0, vec![], vec![2]));
    assert_eq!(done(stored(path(2, &[]), 0, &[]).open(2, &[1])), ('G', 2, vec![(0, 2)], vec![2]));
}

/// A yard whose eccentricity is the stored chain, 3, keeps nothing, and adds no pair where one is left; one above the stored chain, 1, makes nothing grow.
#[test]
fn a_yards_eccentricity_keeps_nothing() {
    assert_eq!(done(stored(path(3, &[]), 3, &[]).open_yard(3, &[0])), ('S', 2, vec![(0, 2)], vec![3, 0, 1, 2]));
    assert_eq!(done(stored(path(3, &[]), 3, &[(0, 2)]).open_yard(3, &[0])), ('K', 3, vec![(0, 2)], vec![3]));
    assert_eq!(done(stored(path(3, &[]), 1, &[(0, 2)]).open_yard(3, &[2])), ('K', 1, vec![(0, 2)], vec![3]));
    assert_eq!(done(stored(path(3, &[]), 1, &[]).open_yard(3, &[2])), ('S', 2, vec![(0, 2)], vec![3, 1, 2, 0]));
}

/// An empty map with a chain, where a yard opens; a chain that no search reaches, which is left without pairs; yards alone with a chain.
#[test]
fn chains_that_nothing_has() {
    assert_eq!(done(stored(Network::empty(), 9, &[]).open_yard(7, &[])), ('S', 0, vec![], vec![7]));
    assert_eq!(done(stored(path(2, &[]), 9, &[(0, 1)]).open_yard(2, &[0, 1])), ('S', 2, vec![], vec![2, 0, 1]));
    assert_eq!(done(stored(path(2, &[0, 1]), 9, &[]).open_yard(2, &[1])), ('S', 0, vec![], vec![2, 1, 0]));
    assert_eq!(done(stored(path(2, &[0, 1]), 9, &[]).open(2, &[1])), ('S', 0, vec![], vec![2, 1, 0]));
}

/// A yard that is closed makes links unsound, a pair at a yard the figures, whichever end it is.
#[test]
fn what_is_sound() {
    assert!(path(3, &[1]).is_sound(3) && path(3, &[0, 1, 2]).is_sound(3));
    assert!(!path(3, &[1, 9]).is_sound(3) && !path(3, &[9]).is_sound(3));
    let mut closed = Network::empty();
    assert!(closed.is_sound(0));
    closed.yards.insert(0);
    assert!(!closed.is_sound(0) && !closed.is_sound(1));
    for (pair, is_sound) in [((0, 2), true), ((0, 1), false), ((1, 2), false), ((2, 0), false)] {
        assert_eq!(are_sound_figures(TODAY, &path(3, &[1]), &Pairs::from([pair]), 2, 1), is_sound, "{pair:?}");
    }
}

// ---- the other calls

/// Of the path of seven without its middle, 3, whose distances add up to 12, 56 - 12 = 44 over 15 pairs are left, 2 and 14 over; its last depot being the
/// yard, the path of six: 5 + 8 + 9 + 8 + 5 = 35. With depots at both ends alone there is one pair, six apart.
#[test]
fn reports_with_yards() {
    let summary = |network: Network| {
        let summary = network.summary(TODAY).expect("two depots deliver");
        let Mean { sum, pairs, quotient, remainder } = summary.mean;
        let counts: Vec<(usize, u16)> = summary.counts.into_iter().enumerate().filter(|&(_, n)| n != 0).collect();
        ([sum, pairs, quotient, remainder], counts)
    };
    assert_eq!(summary(path(7, &[3])), ([44, 15, 2, 14], vec![(4, 2), (5, 2), (6, 2)]));
    assert_eq!(summary(path(7, &[6])), ([35, 15, 2, 5], vec![(3, 2), (4, 2), (5, 2)]));
    assert_eq!(summary(path(7, &[1, 2, 3, 4, 5])), ([6, 1, 6, 0], vec![(6, 2)]));
}

/// Depot, yard, depot; one depot among yards; yards alone.
#[test]
fn files_with_yards() {
    let files = ["010000\n04010100\n01020101\n", "040000\n01010100\n04020101\n", "040000\n04010100\n"];
    assert_eq!(survey::output(&files), "2 1 2 0\nR15\nR15\n2 1 2 0\n");
}

/// A yard is near as any depot is.
#[test]
fn near_yards() {
    let network = path(4, &[1, 2]);
    assert_eq!((network.within(0, 1), network.within(1, 1)), (vec![0, 1], vec![0, 1, 2]));
    assert_eq!((network.nearest(0, &[3, 2]), network.nearest(2, &[9, 3, 1])), (Some((2, 2)), Some((1, 1))));
}

/// Kind 04 is laid out as kind 01, and kind 03 is none.
#[test]
fn frames_of_yards() {
    assert_eq!(frame_of(TODAY, b"040503000204\n"), Some((vec![4, 5, 3, 0, 2, 4], 13)));
    assert_eq!(frame_of(TODAY, b"04FF00\n0"), Some((vec![4, 255, 0], 7)));
    for garbled in ["04\n", "0405\n", "040501\n", "04050000\n", "0405020001", "030500\n", "050500\n", "400500\n"] {
        assert_eq!(frame_of(TODAY, garbled.as_bytes()), None, "{garbled}");
    }
    let is_frame = |frame: &[u8]| notice_of(TODAY, frame).is_some();
    assert!(is_frame(&[4, 0, 0]) && is_frame(&[4, 0, 1, 0]) && !is_frame(&[4, 0, 1]) && !is_frame(&[3, 0, 0]));
}

/// Rule 14.7 with a yard for 05: once it is open the scan begins again at the first line, so that 9 opens as a depot beside the yard, not as a yard beside 0.
#[test]
fn yards_in_a_batch() {
    let mut map = map_of(path(2, &[]));
    let batch = map.open_batch(b"01090105\n04050100\n04090100\n").unwrap_or_else(|refusal| panic!("refused with {refusal}"));
    assert_eq!(batch.left, [2]);
    assert_eq!((&map.network.yards, map.network.are_linked(9, 5)), (&BTreeSet::from([5]), true));
    // 9 is two from 0 through the yard, and three from 1
    assert_eq!(map.figures, Figures { chain: 3, pairs: Pairs::from([(1, 9)]) });
    // yards alone bear a batch; no depot at all does not
    assert_eq!(map_of(path(2, &[0, 1])).open_batch(b"04020101\n").map(|batch| batch.left).ok(), Some(vec![]));
    assert_eq!(Map::empty().open_batch(b"040000\n").err(), Some(12));
}

// ---- held to the definitions

/// After an accepted call on true figures: they are true again, the letter compares the chains, and where the chain is shorter every depot that delivers and was
/// not searched is covered.
fn assert_true(map: &Map, before: usize, opened: &Opened) {
    assert_eq!(map.figures, map.network.figures());
    let letter = match map.figures.chain.cmp(&before) {
        std::cmp::Ordering::Greater => b'G',
        std::cmp::Ordering::Equal => b'K',
        std::cmp::Ordering::Less => b'S',
    };
    assert_eq!(opened.letter, letter);
    if letter != b'S' {
        return;
    }
    let searched: Vec<_> = opened.work.references.iter().map(|&r| map.network.distances(r)).collect();
    for v in map.network.delivering().filter(|v| !opened.work.references.contains(v)) {
        let cover = |from: &plain::network::Distances| map.network.eccentricity(from) + from.of(v) < map.figures.chain;
        assert!(searched.iter().any(cover), "depot {v}");
    }
}

/// How often each letter came.
#[derive(Default, Debug)]
struct Letters {
    grew: usize,
    kept: usize,
    shrank: usize,
}

impl Letters {
    fn count(&mut self, opened: &Opened) {
        match opened.letter {
            b'G' => self.grew += 1,
            b'K' => self.kept += 1,
            _ => self.shrank += 1,
        }
    }
}

/// Opens depot i as a depot and as a yard beside every set of the earlier ones, links every two that are not linked, and goes on from each opening.
fn grow(map: &Map, i: usize, size: usize, letters: &mut Letters) {
    for neighbours in usize::from(i > 0)..1 << i {
        let beside: Vec<usize> = (0..i).filter(|v| neighbours >> v & 1 == 1).collect();
        for is_yard in [false, true] {
            let mut next = map.clone();
            let opened = if is_yard { next.open_yard(i, &beside) } else { next.open(i, &beside) };
            let opened = opened.unwrap_or_else(|refusal| panic!("refused with {refusal}"));
            letters.count(&opened);
            assert_true(&next, map.figures.chain, &opened);
            assert!(!is_yard || opened.letter != b'G');
            for (u, v) in (0..=i).flat_map(|u| (0..u).map(move |v| (u, v))) {
                let mut linked = next.clone();
                if let Ok(link) = linked.link(u, v) {
                    letters.count(&link);
                    assert_true(&linked, next.figures.chain, &link);
                }
            }
            if i + 1 < size {
                grow(&next, i + 1, size, letters);
            }
        }
    }
}

/// All 315 growths of five depots with all 32 choices of yards, those of fewer on the way, and every link of each.
#[test]
fn every_growth_of_five_depots() {
    let mut letters = Letters::default();
    grow(&Map::empty(), 0, 5, &mut letters);
    println!("{letters:?}");
    assert!(letters.grew > 1_000 && letters.kept > 1_000 && letters.shrank > 1_000);
}

/// Inputs with yards, links and lines that are refused.
#[test]
fn inputs_by_chance() {
    let mut letters = Letters::default();
    let mut yards = 0;
    for seed in 0..400 {
        let mut dice = Dice::new(50_000_000 + seed);
        let size = if seed % 40 == 0 { 120 } else { 1 + dice.below(40) };
        let mut map = Map::empty();
        for line in some_input(&mut dice, size).split_inclusive(|&b| b == 0x0A) {
            let before = map.figures.chain;
            if let (_, Some(opened)) = answer(&mut map, line) {
                letters.count(&opened);
                assert_true(&map, before, &opened);
            }
        }
        yards += usize::from(!map.network.yards.is_empty());
    }
    println!("{letters:?}, {yards} maps with yards");
    assert!(letters.grew > 1_000 && letters.kept > 1_000 && letters.shrank > 200 && yards > 150);
}
