//! The network report: on true maps of every shape, damaged maps and memory of no map, the greatest networks, and each refusal. What is answered is
//! held to the searches of the archive as well.
use crate::both::{empty, open, open_yard, search, summary};
use crate::expected::{CHAIN, COUNT, NUMBER, PLACES};
use crate::inputs::Dice;
use crate::lent::{Lent, SIZES};
use crate::maps::{any_figures, any_memory, damage, true_map, DAMAGES};
use crate::plain::network::Network;
use crate::tally::Tally;
use crate::{expected, raw};

/// What an accepted report means: the numbers fit each other and the number that delivers, and the counts are of the eccentricities that searches give.
fn assert_summed(m: &Lent, network: &Network) {
    let n = network.delivering().count() as u64;
    assert_eq!(2 * m.pair_number, n * (n - 1));
    assert_eq!(m.quotient * m.pair_number + m.remainder, m.sum);
    assert!(m.remainder < m.pair_number);
    let counts = &m.counts.data[..PLACES];
    assert_eq!(counts.iter().map(|&c| u64::from(c)).sum::<u64>(), n);
    let (mut again, mut sums) = (vec![0; 256], 0);
    let mut searched = m.clone();
    for u in network.delivering() {
        assert_eq!(raw::search(&mut searched, u as u8), 0);
        again[usize::from(searched.eccentricity)] += 1;
        sums += network.delivering().map(|v| u64::from(searched.hops.data[v])).sum::<u64>();
    }
    assert_eq!(counts, again);
    // each pair is seen from both ends
    assert_eq!(2 * m.sum, sums);
    // and the last search is the one that the report leaves
    assert_eq!((&m.hops, &m.even, &m.odd), (&searched.hops, &searched.even, &searched.odd));
}

#[test]
fn of_true_maps() {
    let mut tally = Tally::new();
    for seed in 0..300 {
        let mut dice = Dice::new(24_000_000 + seed);
        let (mut m, network) = true_map(&mut dice);
        let answer = summary(&mut m);
        if answer == 0 {
            assert_summed(&m, &network);
        }
        assert_eq!(answer == 15, network.delivering().count() < 2);
        tally.count(answer);
    }
    tally.assert_only(&[0, 15]);
}

#[test]
fn of_damaged_maps() {
    let mut tally = Tally::new();
    for seed in 0..40 {
        for way in 0..=DAMAGES {
            let mut dice = Dice::new(25_000_000 + 100 * seed + way as u64);
            let (mut m, network) = true_map(&mut dice);
            damage(&mut dice, &mut m, &network, way);
            tally.count(summary(&mut m));
        }
    }
    tally.assert_all(&[0, 2, 3], 20);
}

#[test]
fn of_no_map() {
    for seed in 0..50 {
        let mut m = any_memory(&mut Dice::new(26_000_000 + seed));
        assert_eq!(summary(&mut m), 2);
        assert_eq!(empty(&mut m), 0);
        assert_eq!(summary(&mut m), 15);
    }
}

/// One depot is too few, whichever it is, and two are enough.
#[test]
fn of_one_and_two_depots() {
    for code in 0..=255u8 {
        let mut m = any_memory(&mut Dice::new(26_500_000 + u64::from(code)));
        assert_eq!(empty(&mut m), 0);
        open(&mut m, code, &[]);
        assert_eq!(summary(&mut m), 15);
        let other = code.wrapping_add(77);
        open(&mut m, other, &[code]);
        assert_eq!(summary(&mut m), 0);
        assert_eq!((m.sum, m.pair_number, m.quotient, m.remainder), (1, 1, 1, 0));
        assert_eq!(m.counts.data[..3], [0, 2, 0]);
        // the search is from the higher of the two
        assert_eq!(m.hops.data[usize::from(code.max(other))], 0);
    }
}

/// A depot among yards is too few, however many they are; a second is enough, and the yards about them are neither searched nor counted.
#[test]
fn of_one_and_two_depots_among_yards() {
    let mut m = any_memory(&mut Dice::new(26_800_000));
    assert_eq!((empty(&mut m), open_yard(&mut m, 100, &[]), summary(&mut m)), (0, b'K', 15));
    assert_eq!((open_yard(&mut m, 200, &[100]), summary(&mut m)), (b'K', 15));
    assert_eq!((open(&mut m, 50, &[100]), open_yard(&mut m, 0, &[50]), summary(&mut m)), (b'K', b'K', 15));
    assert_eq!((open(&mut m, 150, &[200]), summary(&mut m)), (b'G', 0));
    assert_eq!((m.sum, m.pair_number, m.quotient, m.remainder), (3, 1, 3, 0));
    assert_eq!(m.counts.data[..5], [0, 0, 0, 2, 0]);
    // the search is from 150, though 200 is open: the yard 0 lies in the last layer
    assert_eq!((m.hops.data[150], m.hops.data[200], m.hops.data[50], m.hops.data[0]), (0, 1, 3, 4));
    assert_eq!((m.even.data[0], m.odd.data[0]), (1, 1 << 50));
}

/// The longest path has the greatest sum and an eccentricity of 255; where all are linked with each other, all 256 have eccentricity 1.
#[test]
fn the_greatest_networks() {
    let mut path = any_memory(&mut Dice::new(27_000_000));
    assert_eq!(empty(&mut path), 0);
    for code in 0..=255u8 {
        open(&mut path, code, if code == 0 { vec![] } else { vec![code - 1] }.as_slice());
    }
    assert_eq!(summary(&mut path), 0);
    assert_eq!((path.sum, path.pair_number, path.quotient, path.remainder), (2_796_160, 32_640, 85, 21_760));
    assert!(path.counts.data[..128].iter().all(|&n| n == 0) && path.counts.data[128..PLACES].iter().all(|&n| n == 2));

    let mut whole = any_memory(&mut Dice::new(27_500_000));
    assert_eq!(empty(&mut whole), 0);
    for code in 0..=255u8 {
        open(&mut whole, code, &(0..code).collect::<Vec<u8>>());
    }
    assert_eq!(summary(&mut whole), 0);
    assert_eq!((whole.sum, whole.pair_number, whole.quotient, whole.remainder), (32_640, 32_640, 1, 0));
    assert_eq!(whole.counts.data[..3], [0, 256, 0]);
}

/// One fault more each time, and the lower number comes.
#[test]
fn the_first_refusal_of_several() {
    let mut m = any_memory(&mut Dice::new(28_000_000));
    assert_eq!(empty(&mut m), 0);
    assert_eq!(summary(&mut m), 15);
    open(&mut m, 10, &[]);
    assert_eq!(summary(&mut m), 15);
    // depot 150 is open without a link; the number open is wrong; a buffer is short
    m.record.data[2] |= 1 << (150 - 128);
    m.record.data[NUMBER] = 2;
    assert_eq!(summary(&mut m), 3);
    m.record.data[NUMBER] = 1;
    assert_eq!(summary(&mut m), 2);
    m.set_lent(13, 255);
    assert_eq!(summary(&mut m), 1);
}

/// 255 places are too few for the counts, though the eccentricities are small; those past 256 keep their values, and nothing else is asked for.
#[test]
fn the_places_for_the_counts() {
    let mut m = any_memory(&mut Dice::new(28_500_000));
    assert_eq!(empty(&mut m), 0);
    open(&mut m, 7, &[]);
    open(&mut m, 8, &[7]);
    for which in [2, 4, 5, 8, 9, 10, 11, 12] {
        m.set_lent(which, 0);
    }
    for lent in [0, 1, 2, 255, 256, 257, 260] {
        m.set_lent(13, lent);
        assert_eq!(summary(&mut m) == 1, lent < SIZES[13]);
    }
}

/// Figures are not looked at, and a second report is the same.
#[test]
fn figures_do_not_matter() {
    for seed in 0..60 {
        let mut dice = Dice::new(29_000_000 + seed);
        let (mut m, network) = true_map(&mut dice);
        let first = summary(&mut m);
        let mut other = m.clone();
        expected::store_figures(&mut other, &any_figures(&mut dice, &network));
        (other.record.data[CHAIN], other.record.data[COUNT]) = (dice.word(), dice.word());
        assert_eq!(summary(&mut other), first);
        assert_eq!((other.sum, &other.counts), (m.sum, &m.counts));
        if first == 0 {
            let highest = network.delivering().last().expect("two deliver") as u8;
            assert_eq!(search(&mut m, highest), 0);
        }
    }
}
