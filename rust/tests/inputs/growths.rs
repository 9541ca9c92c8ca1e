//! Networks of many shapes, grown depot by depot, some of which are yards.
use super::dice::Dice;
use super::lines::opening_line;
use crate::plain::Network;
use std::collections::{BTreeMap, BTreeSet};

/// How the earlier depots that the next one is linked to are chosen.
#[derive(Clone, Copy, Debug)]
pub enum Shape {
    Path,
    Ring,
    Star,
    /// Of 16 columns.
    Grid,
    /// Each depot above two others.
    Heap,
    Whole,
    /// One surely, and each other by a chance of so many in a hundred.
    Random(usize),
    /// Each by a chance of so many in a hundred, so that it is often apart.
    Loose(usize),
    /// A path, and short cuts by a chance of so many in a thousand for each two depots.
    Trail(usize),
    Linkless,
    /// One to three.
    Sparse,
    /// The nearest of places in a square.
    Regional,
    /// All, then the one before the last, in turns.
    Alternate,
    /// A path, and a short cut from each sixth depot.
    Shortcuts,
}

/// Shapes that hang together, to pick from.
pub const SHAPES: [Shape; 12] = [
    Shape::Path,
    Shape::Ring,
    Shape::Star,
    Shape::Grid,
    Shape::Heap,
    Shape::Whole,
    Shape::Random(0),
    Shape::Random(50),
    Shape::Sparse,
    Shape::Regional,
    Shape::Alternate,
    Shape::Shortcuts,
];

/// Codes in the order in which they open, and what their neighbours are chosen by.
pub struct Growth {
    pub shape: Shape,
    pub order: Vec<usize>,
    /// The codes that open as yards.
    pub yards: BTreeSet<usize>,
    places: BTreeMap<usize, (i64, i64)>,
}

impl Growth {
    /// The codes open in a random order, or from 0 up.
    pub fn new(dice: &mut Dice, shape: Shape) -> Growth {
        let mut order: Vec<usize> = (0..256).collect();
        if !dice.once_in(4) {
            dice.shuffle(&mut order);
        }
        Growth::in_order(dice, shape, order)
    }

    /// The codes open as in `new`, with yards among them or without.
    pub fn some(dice: &mut Dice, shape: Shape) -> Growth {
        let growth = Growth::new(dice, shape);
        if dice.once_in(2) {
            growth.with_yards(dice)
        } else {
            growth
        }
    }

    /// The codes open in steps of 1, 37, 101 or 255, from `shift` on, so that they lie in all four words of a row.
    pub fn spread(dice: &mut Dice, shape: Shape, way: usize, shift: usize) -> Growth {
        let step = [1, 37, 101, 255][way % 4];
        Growth::in_order(dice, shape, (0..256).map(|i| (step * i + shift) % 256).collect())
    }

    /// These codes open, in this order.
    pub fn in_order(dice: &mut Dice, shape: Shape, order: Vec<usize>) -> Growth {
        let codes: BTreeSet<usize> = order.iter().copied().collect();
        let places = codes.into_iter().map(|code| (code, (dice.below(10_000) as i64, dice.below(10_000) as i64))).collect();
        Growth { shape, order, yards: BTreeSet::new(), places }
    }

    /// The same growth with yards among its codes: few, every second, nearly all or all, or so many that one to four of the first depots deliver.
    pub fn with_yards(mut self, dice: &mut Dice) -> Growth {
        let mut codes = self.order.clone();
        codes.sort();
        let codes = codes.into_iter();
        self.yards = match dice.below(8) {
            0 => codes.collect(),
            1 => codes.filter(|_| !dice.once_in(10)).collect(),
            2 => {
                let delivering: BTreeSet<usize> = (0..1 + dice.below(4)).map(|_| self.order[dice.below(24)]).collect();
                codes.filter(|code| !delivering.contains(code)).collect()
            }
            3 | 4 => codes.filter(|_| dice.once_in(2)).collect(),
            _ => codes.filter(|_| dice.once_in(8)).collect(),
        };
        self
    }

    /// The notice line of the depot that opens as number i.
    pub fn line(&self, dice: &mut Dice, i: usize, size: usize) -> Vec<u8> {
        let code = self.order[i];
        opening_line(self.yards.contains(&code), code, &self.neighbours(dice, i, size))
    }

    /// The neighbours of the depot that opens as number i, rising; `size` will open in all.
    pub fn neighbours(&self, dice: &mut Dice, i: usize, size: usize) -> Vec<u8> {
        self.codes_beside(dice, i, size).into_iter().map(|v| v as u8).collect()
    }

    /// The same for codes of any width.
    pub fn codes_beside(&self, dice: &mut Dice, i: usize, size: usize) -> Vec<usize> {
        if i == 0 {
            return Vec::new();
        }
        self.chosen(dice, i, size).into_iter().collect()
    }

    fn chosen(&self, dice: &mut Dice, i: usize, size: usize) -> BTreeSet<usize> {
        let earlier = &self.order[..i];
        let one = |v: usize| BTreeSet::from([v]);
        match self.shape {
            Shape::Path => one(earlier[i - 1]),
            Shape::Ring if i + 1 == size => BTreeSet::from([earlier[i - 1], earlier[0]]),
            Shape::Ring => one(earlier[i - 1]),
            Shape::Star => one(earlier[0]),
            Shape::Grid => {
                let left = (i % 16 != 0).then(|| earlier[i - 1]);
                let above = (i >= 16).then(|| earlier[i - 16]);
                left.into_iter().chain(above).collect()
            }
            Shape::Heap => one(earlier[(i - 1) / 2]),
            Shape::Whole => earlier.iter().copied().collect(),
            Shape::Random(percent) => &by_chance(dice, earlier, percent, 100) | &one(dice.pick(earlier)),
            Shape::Loose(percent) => by_chance(dice, earlier, percent, 100),
            Shape::Trail(permille) => &by_chance(dice, earlier, permille, 1000) | &one(earlier[i - 1]),
            Shape::Linkless => BTreeSet::new(),
            Shape::Sparse => (0..1 + dice.below(3)).map(|_| dice.pick(earlier)).collect(),
            Shape::Regional => self.nearest(dice, i),
            Shape::Alternate if i % 2 == 1 => earlier.iter().copied().collect(),
            Shape::Alternate => one(earlier[i - 2]),
            Shape::Shortcuts if dice.once_in(6) => BTreeSet::from([earlier[i - 1], dice.pick(earlier)]),
            Shape::Shortcuts => one(earlier[i - 1]),
        }
    }

    fn nearest(&self, dice: &mut Dice, i: usize) -> BTreeSet<usize> {
        let far = |v: &usize| {
            let (a, b) = (self.places[v], self.places[&self.order[i]]);
            (a.0 - b.0).pow(2) + (a.1 - b.1).pow(2)
        };
        let mut near = self.order[..i].to_vec();
        near.sort_by_key(far);
        let count = 1 + usize::from(dice.once_in(3)) + usize::from(dice.once_in(7));
        near.into_iter().take(count).collect()
    }

    /// The network of the first `size` depots, all of them open, whether it hangs together or not.
    pub fn network(&self, dice: &mut Dice, size: usize) -> Network {
        let mut network = Network::empty();
        for i in 0..size {
            let code = self.order[i];
            network.open.insert(code);
            network.yards.extend(self.yards.get(&code));
            for v in self.codes_beside(dice, i, size) {
                network.link(code, v);
            }
        }
        network
    }
}

fn by_chance(dice: &mut Dice, from: &[usize], chance: usize, of: usize) -> BTreeSet<usize> {
    from.iter().copied().filter(|_| dice.below(of) < chance).collect()
}

/// A number of depots: mostly small, sometimes at a word's end or all.
pub fn some_size(dice: &mut Dice) -> usize {
    match dice.below(20) {
        0 => dice.pick(&[0, 1, 2, 3]),
        1 => dice.pick(&[63, 64, 65, 127, 128, 129, 191, 192, 193, 255, 256]),
        2 | 3 => dice.below(257),
        4..=8 => dice.below(48),
        _ => dice.below(16),
    }
}
