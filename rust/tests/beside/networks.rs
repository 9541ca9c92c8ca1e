//! Searches and reckonings of every kind of network, at sizes about a word's end, the greatest and the least.
use crate::both::{reckon, search};
use crate::expected::{store_map, CHAIN, COUNT, TABLE};
use crate::inputs::{Dice, Growth, Shape};
use crate::maps::any_memory;
use crate::plain::{Figures, Map};
use crate::tally::Tally;
use crate::truth::assert_reckoned;

const SIZES: [usize; 13] = [0, 1, 2, 3, 7, 16, 64, 65, 100, 150, 200, 255, 256];

/// A network of a shape, whose codes are spread in one of four ways, with yards or without; the figures are false and no longer sound.
fn try_network(shape: Shape, which: usize, has_yards: bool, searched: &mut Tally, reckoned: &mut Tally) {
    let mut dice = Dice::new(15_000_000 + which as u64);
    let (size, mut growth) = (SIZES[which], Growth::spread(&mut dice, shape, which, 29 * which));
    if has_yards {
        growth = growth.with_yards(&mut dice);
    }
    let mut m = any_memory(&mut dice);
    store_map(&mut m, &Map::of(Figures::default(), growth.network(&mut dice, size)));
    (m.record.data[CHAIN], m.record.data[COUNT]) = (999, 5);
    m.pairs.data[..TABLE].fill(7);
    // the first depot, the last, and codes all over
    let ends = [growth.order[0], growth.order[size.max(1) - 1]];
    for code in ends.into_iter().chain((0..5).map(|k| 51 * k + 3)) {
        searched.count(search(&mut m, code as u8));
    }
    let answer = reckon(&mut m);
    reckoned.count(answer);
    if answer == 0 {
        assert_reckoned(&m);
    }
}

fn try_shape(shape: Shape) -> (Tally, Tally) {
    let (mut searched, mut reckoned) = (Tally::new(), Tally::new());
    for which in 0..SIZES.len() {
        try_network(shape, which, false, &mut searched, &mut reckoned);
        try_network(shape, which, true, &mut searched, &mut reckoned);
    }
    (searched, reckoned)
}

fn all_reckoned(shapes: &[Shape]) {
    for &shape in shapes {
        let (searched, reckoned) = try_shape(shape);
        searched.assert_only(&[0, 4]);
        reckoned.assert_only(&[0]);
    }
}

#[test]
fn paths_rings_stars_grids_and_trees() {
    all_reckoned(&[Shape::Path, Shape::Ring, Shape::Star, Shape::Grid, Shape::Heap]);
}

#[test]
fn complete_networks() {
    all_reckoned(&[Shape::Whole]);
}

#[test]
fn random_networks() {
    all_reckoned(&[Shape::Random(0), Shape::Random(2), Shape::Random(20), Shape::Trail(12), Shape::Regional]);
}

/// Depots that no walk joins: a search from an open depot and from a closed one are refused alike.
#[test]
fn networks_that_are_apart() {
    for shape in [Shape::Loose(3), Shape::Linkless] {
        let (searched, reckoned) = try_shape(shape);
        searched.assert_only(&[0, 3, 4]);
        reckoned.assert_only(&[0, 3]);
        assert!(reckoned.times(3) >= 5);
    }
}
