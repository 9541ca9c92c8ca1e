//! Every growth of a few depots, with every choice of yards among them, on true figures and on false but sound ones.
use crate::both::{empty, open_as};
use crate::expected::{store_figures, store_map, CHAIN};
use crate::inputs::Dice;
use crate::lent::Lent;
use crate::maps::any_memory;
use crate::plain::network::Pairs;
use crate::plain::{Figures, Map, Network};
use crate::tally::Tally;
use crate::truth::assert_opened;

/// Codes in all four words of a row, not in the order of opening.
const CODES: [u8; 6] = [60, 161, 6, 107, 208, 53];

/// The codes whose bits a number has, rising.
fn subset(bits: usize) -> Vec<u8> {
    let mut codes: Vec<u8> = (0..CODES.len()).filter(|i| bits >> i & 1 == 1).map(|i| CODES[i]).collect();
    codes.sort();
    codes
}

/// The sets of neighbours that depot i can open beside: the first beside none, each other beside some.
fn choices(i: usize) -> Vec<Vec<u8>> {
    (usize::from(i > 0)..1 << i).map(subset).collect()
}

/// Opens depot i beside every set of the earlier ones, as a depot and, where these are asked for, as a yard, and goes on from each.
fn grow(m: &Lent, i: usize, size: usize, kinds: &[bool], tally: &mut Tally) {
    for neighbours in choices(i) {
        for &is_yard in kinds {
            let mut next = m.clone();
            let letter = open_as(&mut next, is_yard, CODES[i], &neighbours);
            assert_opened(&next, m.record.data[CHAIN], CODES[i], letter);
            tally.count(letter);
            if i + 1 < size {
                grow(&next, i + 1, size, kinds, tally);
            }
        }
    }
}

/// All 9,765 growths of six depots, and all of fewer on the way.
#[test]
fn every_growth_of_six_depots() {
    let mut m = any_memory(&mut Dice::new(18_000_000));
    assert_eq!(empty(&mut m), 0);
    let mut tally = Tally::new();
    grow(&m, 0, 6, &[false], &mut tally);
    assert_eq!(tally.times(b'G') + tally.times(b'K') + tally.times(b'S'), 1 + 1 + 3 + 21 + 315 + 9_765);
    tally.assert_only(b"GKS");
}

/// All 315 growths of five depots with all 32 choices of yards.
#[test]
fn every_growth_of_five_depots_and_yards() {
    let mut m = any_memory(&mut Dice::new(18_100_000));
    assert_eq!(empty(&mut m), 0);
    let mut tally = Tally::new();
    grow(&m, 0, 5, &[false, true], &mut tally);
    assert_eq!(tally.times(b'G') + tally.times(b'K') + tally.times(b'S'), 2 + 4 + 3 * 8 + 21 * 16 + 315 * 32);
    tally.assert_only(b"GKS");
}

/// Every network that the first `size` depots can have grown to.
fn networks(size: usize) -> Vec<Network> {
    (0..size).fold(vec![Network::empty()], |smaller, i| {
        let grown =
            |network: &Network| choices(i).into_iter().map(|neighbours| with_depot(network, CODES[i], &neighbours)).collect::<Vec<_>>();
        smaller.iter().flat_map(grown).collect()
    })
}

fn with_depot(network: &Network, code: u8, neighbours: &[u8]) -> Network {
    let mut more = network.clone();
    more.open.insert(code.into());
    for &v in neighbours {
        more.link(code.into(), v.into());
    }
    more
}

/// The network with every choice of yards among its depots.
fn with_yards(network: &Network) -> Vec<Network> {
    let open: Vec<usize> = network.open.iter().copied().collect();
    let chosen = |bits: usize| (0..open.len()).filter(|i| bits >> i & 1 == 1).map(|i| open[i]).collect();
    (0..1 << open.len()).map(|bits| Network { yards: chosen(bits), ..network.clone() }).collect()
}

/// Every set of pairs of the codes that deliver.
fn sets_of_pairs(network: &Network) -> Vec<Pairs> {
    let partners = |u: usize| network.delivering().filter(move |&v| u < v).map(move |v| (u, v));
    let all: Vec<(usize, usize)> = network.delivering().flat_map(partners).collect();
    (0..1 << all.len()).map(|bits| (0..all.len()).filter(|i| bits >> i & 1 == 1).map(|i| all[i]).collect()).collect()
}

/// Opens the next depot in every way, or the next yard, on every set of pairs and every chain of a few and the greatest.
fn open_on_false_figures(m: &mut Lent, network: &Network, is_yard: bool, tally: &mut Tally) {
    let i = network.open.len();
    store_map(m, &Map::of(Figures::default(), network.clone()));
    for pairs in sets_of_pairs(network) {
        for chain in [0, 1, 2, 3, 4, 5, 255] {
            store_figures(m, &Figures { chain, pairs: pairs.clone() });
            for neighbours in choices(i) {
                let letter = open_as(&mut m.clone(), is_yard, CODES[i], &neighbours);
                assert!(!is_yard || letter != b'G' && (chain > 0 || letter == b'K'));
                tally.count(letter);
            }
        }
    }
}

#[test]
fn every_growth_of_four_depots_on_false_figures() {
    let mut m = any_memory(&mut Dice::new(18_500_000));
    let mut tally = Tally::new();
    for network in (0..4).flat_map(networks) {
        open_on_false_figures(&mut m, &network, false, &mut tally);
    }
    assert_eq!(tally.times(b'G') + tally.times(b'K') + tally.times(b'S'), 7 * (1 + 1 + 2 * 3 + 3 * 8 * 7));
    tally.assert_only(b"GKS");
}

/// Of the 21 growths of four, every third with all 64 sets of pairs.
#[test]
fn growths_of_five_depots_on_false_figures() {
    let mut m = any_memory(&mut Dice::new(18_600_000));
    let mut tally = Tally::new();
    for network in networks(4).iter().step_by(3) {
        open_on_false_figures(&mut m, network, false, &mut tally);
    }
    tally.assert_only(b"GKS");
}

/// Depots and yards that open among yards: every choice of them among up to three, and of every tenth growth of four.
#[test]
fn growths_with_yards_on_false_figures() {
    let mut m = any_memory(&mut Dice::new(18_700_000));
    let (mut depots, mut yards) = (Tally::new(), Tally::new());
    let few = (0..4).flat_map(networks).chain(networks(4).into_iter().step_by(10));
    for network in few.flat_map(|network| with_yards(&network)) {
        open_on_false_figures(&mut m, &network, true, &mut yards);
        if !network.yards.is_empty() {
            open_on_false_figures(&mut m, &network, false, &mut depots);
        }
    }
    depots.assert_only(b"GKS");
    yards.assert_only(b"KS");
}
