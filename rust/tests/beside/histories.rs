//! Histories of openings: a network of a shape grows depot by depot, and before each opening come calls that are bent so that they are refused. In some
//! the depots open in batches too, whose lines are shuffled; in some there are yards among them.
use crate::both::{empty, open_as, open_batch, reckon};
use crate::expected::{network, store_figures, CHAIN, COUNT, NUMBER};
use crate::inputs::lines::{notice_line, opening_line};
use crate::inputs::{Dice, Growth, Shape};
use crate::lent::{Lent, SIZES};
use crate::maps::any_memory;
use crate::plain::Figures;
use crate::tally::Tally;
use crate::truth::assert_opened;
use std::collections::BTreeSet;

/// A way to bend a call: one fault, or two at once.
#[derive(Clone, Copy, Debug)]
enum Bend {
    Taken,
    Lonely,
    Unsorted,
    Unknown,
    Itself,
    TakenUnsorted,
    UnsortedUnknown,
    AllCodes,
    /// This buffer lacks its last element.
    Short(usize),
    ShortTaken,
    TakenLonely,
}

const BENDS: [Bend; 18] = [
    Bend::Taken,
    Bend::Lonely,
    Bend::Unsorted,
    Bend::Unknown,
    Bend::Itself,
    Bend::TakenUnsorted,
    Bend::UnsortedUnknown,
    Bend::AllCodes,
    Bend::Short(0),
    Bend::Short(1),
    Bend::Short(2),
    Bend::Short(3),
    Bend::Short(4),
    Bend::Short(5),
    Bend::Short(6),
    Bend::Short(7),
    Bend::ShortTaken,
    Bend::TakenLonely,
];

struct Notice {
    is_yard: bool,
    code: u8,
    neighbours: Vec<u8>,
    short: Option<usize>,
}

impl Bend {
    /// What refuses a call that is bent so, some depot being open.
    fn refusal(self) -> u8 {
        match self {
            Bend::Short(_) | Bend::ShortTaken => 1,
            Bend::Taken | Bend::TakenUnsorted | Bend::TakenLonely => 5,
            Bend::Lonely => 6,
            Bend::Unsorted | Bend::UnsortedUnknown => 7,
            Bend::Unknown | Bend::Itself | Bend::AllCodes => 8,
        }
    }

    /// The notice of a code, a yard's or not, beside some neighbours, bent; `taken` is open, `closed` is not.
    fn of(self, is_yard: bool, code: u8, neighbours: &[u8], taken: u8, closed: u8) -> Notice {
        let joined = |v: u8| BTreeSet::from_iter(neighbours.iter().copied().chain([v])).into_iter().collect::<Vec<u8>>();
        let repeated = |list: &[u8]| [list, &list[..list.len().min(1)]].concat();
        let plain = Notice { is_yard, code, neighbours: neighbours.to_vec(), short: None };
        match self {
            Bend::Taken => Notice { code: taken, ..plain },
            Bend::Lonely => Notice { neighbours: Vec::new(), ..plain },
            Bend::Unsorted => Notice { neighbours: repeated(neighbours), ..plain },
            Bend::Unknown => Notice { neighbours: joined(closed), ..plain },
            Bend::Itself => Notice { neighbours: joined(code), ..plain },
            Bend::TakenUnsorted => Notice { code: taken, neighbours: repeated(neighbours), ..plain },
            Bend::UnsortedUnknown => Notice { neighbours: repeated(&joined(closed)), ..plain },
            Bend::AllCodes => Notice { neighbours: (0..=255).collect(), ..plain },
            Bend::Short(which) => Notice { short: Some(which), ..plain },
            Bend::ShortTaken => Notice { code: taken, short: Some(3), ..plain },
            Bend::TakenLonely => Notice { code: taken, neighbours: Vec::new(), ..plain },
        }
    }
}

/// Figures that are made false before some of the calls: every so many, with this chain, and so many of a hundred pairs.
#[derive(Clone, Copy)]
struct Doubt {
    every: usize,
    chain: usize,
    percent: usize,
}

struct History {
    m: Lent,
    dice: Dice,
    calls: usize,
    bent: usize,
    doubt: Option<Doubt>,
    tally: Tally,
}

impl History {
    fn begun(seed: u64, doubt: Option<Doubt>) -> History {
        let mut dice = Dice::new(seed);
        let mut m = any_memory(&mut dice);
        assert_eq!(empty(&mut m), 0);
        History { m, dice, calls: 0, bent: 0, doubt, tally: Tally::new() }
    }

    /// Makes the figures false if it is time to.
    fn doubt(&mut self) {
        let Some(doubt) = self.doubt.filter(|doubt| self.calls % doubt.every == 0) else {
            return;
        };
        let network = network(&self.m);
        let mut figures = Figures { chain: doubt.chain, ..Figures::default() };
        for u in network.delivering() {
            figures.pairs.extend(network.delivering().filter(|&v| u < v && self.dice.below(100) < doubt.percent).map(|v| (u, v)));
        }
        store_figures(&mut self.m, &figures);
    }

    /// One call, and what has to hold after it.
    fn call(&mut self, notice: &Notice) -> u8 {
        self.doubt();
        self.calls += 1;
        let before = self.m.record.data[CHAIN];
        let answer = match notice.short {
            None => open_as(&mut self.m, notice.is_yard, notice.code, &notice.neighbours),
            Some(which) => {
                let mut short = self.m.clone();
                short.set_lent(which, SIZES[which] - 1);
                open_as(&mut short, notice.is_yard, notice.code, &notice.neighbours)
            }
        };
        self.tally.count(answer);
        if b"GKS".contains(&answer) && self.doubt.is_none() {
            assert_opened(&self.m, before, notice.code, answer);
        }
        answer
    }

    /// Grows a network of `size` depots, with this many bent calls before each opening. A depot opens beside those that are open by then.
    fn grow(mut self, growth: &Growth, size: usize, bends: usize) -> History {
        for i in 0..size {
            let code = growth.order[i] as u8;
            let open = network(&self.m).open;
            let next = self.next(growth, i, size);
            let closed = growth.order.get(i + 1).map_or(code, |&next| next as u8);
            for _ in 0..bends {
                let bend = BENDS[self.bent % BENDS.len()];
                self.bent += 1;
                // every second one is a yard's; the first opening takes any of these, and no neighbours cannot be unsorted
                let is_yard = if open.is_empty() { next.is_yard } else { self.bent % 2 == 0 };
                let answer = self.call(&bend.of(is_yard, code, &next.neighbours, growth.order[0] as u8, closed));
                let is_void = open.is_empty() || matches!(bend, Bend::Unsorted) && next.neighbours.is_empty();
                assert!(is_void || answer == bend.refusal(), "{bend:?}: {answer}");
            }
            self.call(&next);
        }
        self
    }

    /// The notice of the depot that opens as number i, beside those of its neighbours that are open.
    fn next(&mut self, growth: &Growth, i: usize, size: usize) -> Notice {
        let (code, open) = (growth.order[i], network(&self.m).open);
        let mut neighbours = growth.neighbours(&mut self.dice, i, size);
        neighbours.retain(|&v| open.contains(&v.into()));
        Notice { is_yard: growth.yards.contains(&code), code: code as u8, neighbours, short: None }
    }
}

impl History {
    /// One batch, and what has to hold after it: it is refused with this number or, for 0, accepted, and true figures are true again.
    fn batch(&mut self, lines: &[Vec<u8>], refusal: u8) {
        self.doubt();
        self.calls += 1;
        let answer = open_batch(&mut self.m, &lines.concat());
        assert_eq!(answer, refusal);
        self.tally.count(answer);
        if answer == 0 && self.doubt.is_none() {
            let mut again = self.m.clone();
            assert_eq!(reckon(&mut again), 0);
            assert_eq!((&again.record, &again.pairs), (&self.m.record, &self.m.pairs), "the figures");
        }
    }

    /// The lines of the next depots of a growth beside what is open or opens with them, shuffled among bent ones.
    fn lines(&mut self, growth: &Growth, next: std::ops::Range<usize>, size: usize) -> Vec<Vec<u8>> {
        let mut known = network(&self.m).open;
        let closed = growth.order.get(next.end).map_or(growth.order[0], |&later| later) as u8;
        let mut lines = Vec::new();
        for i in next {
            let code = growth.order[i];
            let mut neighbours = growth.neighbours(&mut self.dice, i, size);
            neighbours.retain(|&v| known.contains(&v.into()));
            known.insert(code);
            let is_yard = growth.yards.contains(&code);
            lines.push(opening_line(is_yard, code, &neighbours));
            if self.dice.once_in(2) {
                let bent = BENDS[self.bent % BENDS.len()].of(is_yard, code as u8, &neighbours, growth.order[0] as u8, closed);
                self.bent += 1;
                // a frame has at most 255 neighbours
                lines.push(opening_line(is_yard, bent.code.into(), &bent.neighbours[..bent.neighbours.len().min(255)]));
            }
        }
        self.dice.shuffle(&mut lines);
        lines
    }

    /// Grows a network of `size` depots, the first by an opening, as any map begins; then by openings and by batches of up to 30 depots, in turns as
    /// the dice have them. Before a batch come others that are refused.
    fn grow_mixed(mut self, growth: &Growth, size: usize) -> History {
        self.batch(&[notice_line(growth.order[0], &[])], 12);
        let first = self.next(growth, 0, size);
        self.call(&first);
        let mut i = 1;
        while i < size {
            if self.dice.once_in(3) {
                let next = self.next(growth, i, size);
                self.call(&next);
                i += 1;
                continue;
            }
            let end = size.min(i + 1 + self.dice.below(30));
            let lines = self.lines(growth, i..end, size);
            let mut garbled = lines.clone();
            garbled.insert(self.dice.below(lines.len() + 1), b"01\n".to_vec());
            self.batch(&garbled, 9);
            garbled.resize(65, b"01\n".to_vec());
            self.batch(&garbled, 11);
            self.batch(&lines, 0);
            i = end;
        }
        self
    }
}

/// Four histories of 40 depots, with three bent calls before each opening.
fn forty(shape: Shape) -> Tally {
    let mut tally = Tally::new();
    for way in 0..4 {
        let mut history = History::begun(19_000_000 + way as u64, None);
        let growth = Growth::spread(&mut history.dice, shape, way, 29 * way + 5);
        let history = history.grow(&growth, 40, 3);
        assert_eq!(history.calls, 160);
        tally.add(&history.tally);
    }
    tally.assert_all(&[1, 5, 6, 7, 8], 20);
    tally
}

#[test]
fn forty_depots_in_a_path() {
    forty(Shape::Path).assert_only(&[1, 5, 6, 7, 8, b'G', b'K']);
}

#[test]
fn forty_depots_in_a_ring_or_on_a_trail() {
    forty(Shape::Ring).assert_all(b"GKS", 4);
    forty(Shape::Trail(12)).assert_all(b"GKS", 4);
}

#[test]
fn forty_depots_in_a_star_a_grid_or_a_tree() {
    for shape in [Shape::Star, Shape::Grid, Shape::Heap, Shape::Random(0)] {
        forty(shape).assert_all(b"GK", 4);
    }
}

#[test]
fn forty_depots_all_linked_or_at_random() {
    forty(Shape::Whole).assert_all(b"GK", 4);
    forty(Shape::Random(4)).assert_all(b"GKS", 4);
    forty(Shape::Random(30)).assert_all(b"GKS", 1);
}

/// Eight histories of 40 depots, of which some are yards.
fn forty_with_yards(shape: Shape) -> Tally {
    let mut tally = Tally::new();
    for way in 0..8 {
        let mut history = History::begun(19_500_000 + way as u64, None);
        let growth = Growth::spread(&mut history.dice, shape, way, 29 * way + 5).with_yards(&mut history.dice);
        let history = history.grow(&growth, 40, 3);
        assert_eq!(history.calls, 160);
        tally.add(&history.tally);
    }
    tally.assert_all(&[1, 5, 6, 7, 8], 20);
    tally
}

#[test]
fn forty_depots_and_yards() {
    for shape in [Shape::Path, Shape::Star, Shape::Grid, Shape::Heap, Shape::Random(0), Shape::Whole, Shape::Loose(6)] {
        forty_with_yards(shape).assert_all(b"GK", 4);
    }
    for shape in [Shape::Ring, Shape::Trail(12), Shape::Random(4), Shape::Regional] {
        forty_with_yards(shape).assert_all(b"GKS", 1);
    }
}

/// Many of these depots are lonely, and stay closed.
#[test]
fn forty_depots_that_are_often_lonely() {
    let tally = forty(Shape::Loose(6));
    assert!(tally.times(6) >= 40, "lonely {} times", tally.times(6));
}

/// 256 depots, with this many bent calls before each opening.
fn all_depots(shape: Shape, bends: usize) -> History {
    let mut history = History::begun(20_000_000, None);
    let growth = Growth::spread(&mut history.dice, shape, 2, 77);
    history.grow(&growth, 256, bends)
}

fn mixed(shape: Shape, letters: &[u8]) {
    let history = all_depots(shape, 1);
    history.tally.assert_all(&[1, 5, 6, 7, 8], 8);
    history.tally.assert_all(letters, 1);
    assert_eq!((history.calls, history.m.record.data[NUMBER]), (512, 256));
}

#[test]
fn all_depots_in_a_ring_or_on_a_trail() {
    mixed(Shape::Ring, b"GKS");
    mixed(Shape::Trail(1), b"GKS");
}

#[test]
fn all_depots_in_a_grid_or_a_tree() {
    mixed(Shape::Grid, b"GK");
    mixed(Shape::Heap, b"GK");
}

#[test]
fn all_depots_at_random() {
    mixed(Shape::Random(1), b"GKS");
    mixed(Shape::Random(20), b"GKS");
}

/// 256 depots, of which every eighth is a yard, or every second.
#[test]
fn all_depots_and_yards() {
    for (shape, every) in [(Shape::Trail(1), 8), (Shape::Random(1), 2), (Shape::Regional, 8), (Shape::Grid, 2)] {
        let mut history = History::begun(20_500_000, None);
        let mut growth = Growth::spread(&mut history.dice, shape, 2, 77);
        growth.yards = (0..256).step_by(every).collect();
        let history = history.grow(&growth, 256, 1);
        history.tally.assert_all(b"GK", 1);
        assert_eq!((history.calls, history.m.record.data[NUMBER], network(&history.m).yards), (512, 256, growth.yards));
    }
}

#[test]
fn all_depots_in_a_path() {
    let record = all_depots(Shape::Path, 0).m.record.data;
    assert_eq!(record[NUMBER..=COUNT], [256, 255, 1]);
}

#[test]
fn all_depots_linked() {
    let record = all_depots(Shape::Whole, 0).m.record.data;
    assert_eq!(record[NUMBER..=COUNT], [256, 1, 32_640]);
}

/// Openings and batches in turns: the network of a shape grows whole, whatever the order of the lines.
fn in_batches(shape: Shape, size: usize, letters: &[u8]) {
    let mut tally = Tally::new();
    for way in 0..4 {
        let mut history = History::begun(23_100_000 + way as u64, None);
        let growth = Growth::spread(&mut history.dice, shape, way, 29 * way + 5);
        let history = history.grow_mixed(&growth, size);
        assert!(history.m.record.data[NUMBER] as usize <= size);
        tally.add(&history.tally);
    }
    tally.assert_all(&[0, 9, 11, 12], 4);
    tally.assert_all(letters, 1);
}

#[test]
fn batches_of_a_path_a_ring_or_a_trail() {
    in_batches(Shape::Path, 90, b"GK");
    in_batches(Shape::Ring, 90, b"GK");
    in_batches(Shape::Trail(12), 90, b"GK");
}

#[test]
fn batches_of_a_grid_a_tree_or_at_random() {
    in_batches(Shape::Grid, 120, b"GK");
    in_batches(Shape::Heap, 120, b"GK");
    in_batches(Shape::Random(3), 120, b"GK");
    in_batches(Shape::Loose(4), 80, b"K");
    in_batches(Shape::Whole, 60, b"K");
}

#[test]
fn batches_up_to_all_depots() {
    in_batches(Shape::Random(1), 256, b"GK");
    in_batches(Shape::Path, 256, b"GK");
}

/// Openings and batches of depots and yards.
#[test]
fn batches_of_depots_and_yards() {
    for shape in [Shape::Path, Shape::Ring, Shape::Trail(12), Shape::Grid, Shape::Heap, Shape::Random(3), Shape::Loose(4)] {
        let mut tally = Tally::new();
        for way in 0..4 {
            let mut history = History::begun(23_700_000 + way as u64, None);
            let growth = Growth::spread(&mut history.dice, shape, way, 29 * way + 5).with_yards(&mut history.dice);
            let history = history.grow_mixed(&growth, 90);
            let open = network(&history.m).open;
            assert_eq!(network(&history.m).yards, &growth.yards & &open);
            tally.add(&history.tally);
        }
        tally.assert_all(&[0, 9, 11, 12], 4);
        tally.assert_all(b"K", 1);
    }
}

/// Openings and batches on figures that are made false before every second call.
#[test]
fn batches_on_figures_made_false_between() {
    for shape in [Shape::Path, Shape::Ring, Shape::Trail(15), Shape::Random(5)] {
        let mut tally = Tally::new();
        for k in 0..8 {
            let doubt = Doubt { every: 2, chain: k, percent: 7 * k };
            let mut history = History::begun(23_500_000 + k as u64, Some(doubt));
            let growth = Growth::spread(&mut history.dice, shape, k, 31 * k);
            let growth = if k % 2 == 0 { growth } else { growth.with_yards(&mut history.dice) };
            tally.add(&history.grow_mixed(&growth, 40).tally);
        }
        tally.assert_all(&[0, 9, 11], 8);
    }
}

/// Histories of 30 depots whose figures are made false before every third call, the later ones with yards.
#[test]
fn figures_made_false_between() {
    for shape in [Shape::Path, Shape::Ring, Shape::Trail(15), Shape::Random(5)] {
        let mut tally = Tally::new();
        for k in 0..16 {
            let doubt = Doubt { every: 3, chain: k % 8, percent: 7 * (k % 8) };
            let mut history = History::begun(21_000_000 + k as u64, Some(doubt));
            let growth = Growth::spread(&mut history.dice, shape, k, 31 * k);
            let growth = if k < 8 { growth } else { growth.with_yards(&mut history.dice) };
            let history = history.grow(&growth, 30, 1);
            assert_eq!(history.calls, 60);
            tally.add(&history.tally);
        }
        tally.assert_all(&[1, 5, 6, 7, 8, b'G', b'K', b'S'], 4);
    }
}
