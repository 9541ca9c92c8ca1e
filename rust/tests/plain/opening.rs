//! The opening of a depot or a yard, and the reference rounds that it shares with the whole reckoning.
use super::lines::Notice;
use super::network::{Distances, Figures, Network, Pairs};
use super::rows::Rows;
use super::shape::{Shape, TODAY};
use std::collections::BTreeMap;

/// What the rounds did with a depot. A bound stands with the reference that gave it.
#[derive(Clone, Debug, PartialEq)]
pub enum Status {
    Remaining(Option<(usize, usize)>),
    Skipped(usize, usize),
    Searched(usize),
}

/// What a call with rounds or a single search found.
#[derive(Clone)]
pub struct Work {
    pub figures: Figures,
    pub status: BTreeMap<usize, Status>,
    /// The references in their order, and what the last search found.
    pub references: Vec<usize>,
    pub last: Option<Distances>,
}

impl Work {
    pub fn begun(network: &Network, figures: Figures) -> Work {
        let status = network.open.iter().map(|&v| (v, Status::Remaining(None))).collect();
        Work { figures, status, references: Vec::new(), last: None }
    }

    pub fn note_search(&mut self, network: &Network, r: usize, distances: Distances) {
        self.status.insert(r, Status::Searched(network.eccentricity(&distances)));
        self.references.push(r);
        self.last = Some(distances);
    }

    /// One search, no rounds.
    fn searched(network: &Network, a: usize, figures: Figures, distances: Distances) -> Work {
        let mut work = Work::begun(network, figures);
        work.note_search(network, a, distances);
        work
    }

    /// The round of reference r.
    pub fn round(&mut self, network: &Network, r: usize, distances: Distances) {
        self.hold(network, r, distances);
        self.skip();
    }

    /// A round without its skipping. A yard raises no candidate and adds no pair; it gives bounds as any depot does. A bound changes only for a smaller
    /// one, so that its reference is the earliest.
    pub fn hold(&mut self, network: &Network, r: usize, distances: Distances) {
        let e = network.eccentricity(&distances);
        if network.delivers(r) && e > self.figures.chain {
            self.figures = Figures { chain: e, pairs: network.farthest_from(r, &distances) };
        } else if network.delivers(r) && e == self.figures.chain && e != 0 {
            self.figures.pairs.extend(network.farthest_from(r, &distances));
        }
        self.note_search(network, r, distances.clone());
        for (&v, status) in self.status.iter_mut() {
            if let Status::Remaining(bound) = status {
                let new = e + distances.of(v);
                if bound.is_none_or(|(old, _)| new < old) {
                    *bound = Some((new, r));
                }
            }
        }
    }

    fn skip(&mut self) {
        for status in self.status.values_mut() {
            if let Status::Remaining(Some((bound, by))) = *status {
                if bound < self.figures.chain {
                    *status = Status::Skipped(bound, by);
                }
            }
        }
    }

    /// The next reference (rule 5.4), a yard or not: codes rise here, so that the lowest of equal degree stays.
    fn next(&self, network: &Network) -> Option<usize> {
        let mut best = None;
        for (&v, status) in &self.status {
            let degree = network.beside(v).len();
            if matches!(status, Status::Remaining(_)) && best.is_none_or(|(_, most)| degree > most) {
                best = Some((v, degree));
            }
        }
        Some(best?.0)
    }

    pub fn rounds(&mut self, network: &Network) {
        while let Some(r) = self.next(network) {
            self.round(network, r, network.distances(r));
        }
    }
}

/// The whole reckoning of a network that hangs together.
pub fn reckoning(network: &Network) -> Work {
    let mut work = Work::begun(network, Figures::default());
    work.rounds(network);
    work
}

/// An accepted opening, link or closing.
pub struct Opened {
    pub letter: u8,
    pub work: Work,
}

/// The opening of a, which is open with its links in place, on stored figures that may be false. A yard's own eccentricity neither makes the chain grow nor
/// keeps it: a stored pair that is left does, or a chain that was 0.
fn opening(network: &Network, stored: &Figures, a: usize) -> Opened {
    let distances = network.distances(a);
    let (e, chain) = (network.eccentricity(&distances), stored.chain);
    let is_yard = network.yards.contains(&a);
    if !is_yard && e > chain {
        let figures = Figures { chain: e, pairs: network.farthest_from(a, &distances) };
        return Opened { letter: b'G', work: Work::searched(network, a, figures, distances) };
    }
    let through = |pair: &(usize, usize)| distances.of(pair.0) + distances.of(pair.1);
    let mut pairs: Pairs = stored.pairs.iter().copied().filter(|pair| through(pair) >= chain).collect();
    if !is_yard && e == chain {
        pairs.extend(network.farthest_from(a, &distances));
    }
    let is_kept = if is_yard { chain == 0 } else { e == chain };
    if is_kept || !pairs.is_empty() {
        return Opened { letter: b'K', work: Work::searched(network, a, Figures { chain, pairs }, distances) };
    }
    let candidate = stored.pairs.iter().map(|pair| chain.min(through(pair))).max().unwrap_or(0);
    let mut work = Work::begun(network, Figures { chain: candidate, pairs: Pairs::new() });
    work.round(network, a, distances);
    work.rounds(network);
    Opened { letter: b'S', work }
}

/// The refusals 5, 16, 6, 7 and 8 of a notice, in this order, 0 for none.
fn refusal(shape: &Shape, network: &Network, code: usize, neighbours: &[usize]) -> u8 {
    let open = &network.open;
    if open.contains(&code) {
        return 5;
    }
    if open.len() == shape.places {
        return 16;
    }
    if neighbours.is_empty() && !open.is_empty() {
        return 6;
    }
    if neighbours.windows(2).any(|two| two[0] >= two[1]) {
        return 7;
    }
    if neighbours.iter().any(|v| !open.contains(v)) {
        return 8;
    }
    0
}

/// A map that is sound and hangs together.
#[derive(Clone)]
pub struct Map {
    pub shape: &'static Shape,
    pub network: Network,
    pub figures: Figures,
    pub rows: Rows,
}

impl Map {
    pub fn empty() -> Map {
        Map::of_shape(TODAY)
    }

    /// The empty map of a shape.
    pub fn of_shape(shape: &'static Shape) -> Map {
        Map { shape, network: Network::empty(), figures: Figures::default(), rows: Rows::empty(shape) }
    }

    /// A map of these figures, true or false, and this network, whose depots have opened in rising order of their codes.
    pub fn of(figures: Figures, network: Network) -> Map {
        let mut map = Map::empty();
        network.open.iter().for_each(|&code| map.rows.open(code));
        Map { network, figures, ..map }
    }

    /// A map of this network with true figures.
    pub fn true_of(network: Network) -> Map {
        let figures = network.figures();
        Map::of(figures, network)
    }

    /// Opens a depot that delivers, or says which of 5 to 8 and 16 refuses it.
    pub fn open(&mut self, code: usize, neighbours: &[usize]) -> Result<Opened, u8> {
        self.open_as(false, code, neighbours)
    }

    /// Opens a yard, or says which of 5 to 8 and 16 refuses it.
    pub fn open_yard(&mut self, code: usize, neighbours: &[usize]) -> Result<Opened, u8> {
        self.open_as(true, code, neighbours)
    }

    /// Does what a notice says.
    pub fn take(&mut self, notice: &Notice) -> Result<Opened, u8> {
        match notice {
            Notice::Opening { is_yard, code, neighbours } => self.open_as(*is_yard, *code, neighbours),
            Notice::Link(first, second) => self.link(*first, *second),
            Notice::Closing(code) => self.close(*code),
        }
    }

    fn open_as(&mut self, is_yard: bool, a: usize, neighbours: &[usize]) -> Result<Opened, u8> {
        match refusal(self.shape, &self.network, a, neighbours) {
            0 => {}
            refusal => return Err(refusal),
        }
        self.network.open.insert(a);
        if is_yard {
            self.network.yards.insert(a);
        }
        for &v in neighbours {
            self.network.link(a, v);
        }
        self.rows.open(a);
        let opened = opening(&self.network, &self.figures, a);
        self.figures = opened.work.figures.clone();
        Ok(opened)
    }
}
