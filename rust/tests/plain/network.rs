//! The network: distances, eccentricities, longest chain and farthest pairs; when links and figures are sound, and when a map is apart. A yard is an open
//! depot that parcels pass through and never go to: walks lead through it, and it is the end of no pair. Depots go by their codes, whatever their rows.
use super::rows::Rows;
use super::shape::Shape;
use super::words::{rows_of_table, set_of_row};
use std::collections::{BTreeMap, BTreeSet, VecDeque};

/// Pairs of codes, the lower one first.
pub type Pairs = BTreeSet<(usize, usize)>;

/// More than any code.
const CODES: usize = 65_536;

/// A search: the distance of each code that a walk leads to.
#[derive(Clone, Debug, PartialEq)]
pub struct Distances(BTreeMap<usize, usize>);

impl Distances {
    /// The distance of a code, none where no walk leads.
    pub fn to(&self, v: usize) -> Option<usize> {
        self.0.get(&v).copied()
    }

    /// The distance of an open depot, on a map that hangs together.
    pub fn of(&self, v: usize) -> usize {
        self.to(v).expect("the network hangs together")
    }

    /// The codes that the search reached, rising, with their distances.
    pub fn reached(&self) -> impl Iterator<Item = (usize, usize)> + '_ {
        self.0.iter().map(|(&v, &d)| (v, d))
    }

    /// The distance of the last layer: the greatest to an open depot, a yard or not.
    pub fn depth(&self) -> usize {
        self.0.values().copied().max().unwrap_or(0)
    }

    /// The depots at a distance, yards with them.
    pub fn layer(&self, distance: usize) -> BTreeSet<usize> {
        self.reached().filter(|&(_, d)| d == distance).map(|(v, _)| v).collect()
    }
}

#[derive(Clone, Debug, PartialEq)]
pub struct Network {
    pub open: BTreeSet<usize>,
    /// The yards, which are open too on a sound map.
    pub yards: BTreeSet<usize>,
    /// The neighbours of each code that has some, rising; a link need not stand both ways round.
    pub rows: BTreeMap<usize, Vec<usize>>,
}

impl Network {
    pub fn empty() -> Network {
        Network { open: BTreeSet::new(), yards: BTreeSet::new(), rows: BTreeMap::new() }
    }

    /// The network of an open set, a yard set and a link table, in words. Its depots go by their rows.
    pub fn of(shape: &Shape, open: &[u64], yards: &[u64], links: &[u64]) -> Network {
        Network { open: set_of_row(open), yards: set_of_row(yards), rows: rows_of_table(shape.words(), links).collect() }
    }

    /// A sound network whose depots go by their rows, by codes.
    pub fn by_code(self, rows: &Rows) -> Network {
        if *rows == Rows::Codes {
            return self;
        }
        let codes = |set: &BTreeSet<usize>| set.iter().map(|&row| rows.code(row)).collect();
        let mut network = Network { open: codes(&self.open), yards: codes(&self.yards), rows: BTreeMap::new() };
        for (u, v) in self.bits() {
            network.link(rows.code(u), rows.code(v));
        }
        network
    }

    /// An open depot that parcels go to: no yard.
    pub fn delivers(&self, v: usize) -> bool {
        self.open.contains(&v) && !self.yards.contains(&v)
    }

    /// The depots that deliver, rising.
    pub fn delivering(&self) -> impl Iterator<Item = usize> + '_ {
        self.open.iter().copied().filter(|&v| self.delivers(v))
    }

    /// The depots that a code is linked to, rising.
    pub fn beside(&self, u: usize) -> &[usize] {
        self.rows.get(&u).map_or(&[], Vec::as_slice)
    }

    pub fn are_linked(&self, u: usize, v: usize) -> bool {
        self.beside(u).binary_search(&v).is_ok()
    }

    pub fn link(&mut self, u: usize, v: usize) {
        for (one, other) in [(u, v), (v, u)] {
            let row = self.rows.entry(one).or_default();
            if let Err(place) = row.binary_search(&other) {
                row.insert(place, other);
            }
        }
    }

    /// Takes a depot and its links out.
    pub fn close(&mut self, code: usize) {
        self.open.remove(&code);
        self.yards.remove(&code);
        self.rows.remove(&code);
        for row in self.rows.values_mut() {
            row.retain(|&v| v != code);
        }
        self.rows.retain(|_, row| !row.is_empty());
    }

    /// Each link, both ways round.
    pub fn bits(&self) -> impl Iterator<Item = (usize, usize)> + '_ {
        self.rows.iter().flat_map(|(&u, row)| row.iter().map(move |&v| (u, v)))
    }

    /// The links are sound (rule 1.8); a yard that is closed makes them unsound.
    pub fn is_sound(&self, number: u64) -> bool {
        let is_right = |(u, v)| self.open.contains(&u) && self.open.contains(&v) && u != v && self.are_linked(v, u);
        number == self.open.len() as u64 && self.yards.is_subset(&self.open) && self.bits().all(is_right)
    }

    pub fn distances(&self, from: usize) -> Distances {
        let mut is_found = vec![false; CODES];
        let mut found = BTreeMap::new();
        let mut queue = VecDeque::from([(from, 0)]);
        is_found[from] = true;
        while let Some((u, d)) = queue.pop_front() {
            found.insert(u, d);
            for &v in self.beside(u) {
                if !is_found[v] {
                    is_found[v] = true;
                    queue.push_back((v, d + 1));
                }
            }
        }
        Distances(found)
    }

    /// No walk leads from the lowest open code to some open depot.
    pub fn is_apart(&self) -> bool {
        match self.open.first() {
            None => false,
            Some(&lowest) => {
                let distances = self.distances(lowest);
                self.open.iter().any(|&v| distances.to(v).is_none())
            }
        }
    }

    /// The greatest distance to a depot that delivers, 0 if there is none.
    pub fn eccentricity(&self, distances: &Distances) -> usize {
        distances.reached().filter(|&(v, _)| self.delivers(v)).map(|(_, d)| d).max().unwrap_or(0)
    }

    /// r, which delivers, with each other depot at its eccentricity that does.
    pub fn farthest_from(&self, r: usize, distances: &Distances) -> Pairs {
        let far = distances.layer(self.eccentricity(distances));
        far.into_iter().filter(|&v| v != r && self.delivers(v)).map(|v| (r.min(v), r.max(v))).collect()
    }

    /// Longest chain and farthest pairs of a network that hangs together, by their definition: a search from every depot that delivers.
    pub fn figures(&self) -> Figures {
        let mut figures = Figures::default();
        for u in self.delivering() {
            for (v, d) in self.distances(u).reached().filter(|&(v, _)| self.delivers(v)) {
                if d > figures.chain {
                    figures = Figures { chain: d, pairs: BTreeSet::new() };
                }
                if d == figures.chain && u < v {
                    figures.pairs.insert((u, v));
                }
            }
        }
        figures
    }
}

#[derive(Clone, Debug, Default, PartialEq)]
pub struct Figures {
    pub chain: usize,
    pub pairs: Pairs,
}

/// The figures are sound (rule 1.8): the ends of each pair deliver. Network and pairs go by rows.
pub fn are_sound_figures(shape: &Shape, network: &Network, pairs: &Pairs, chain: u64, count: u64) -> bool {
    let is_right = |&(u, v): &(usize, usize)| u < v && network.delivers(u) && network.delivers(v);
    pairs.iter().all(is_right) && count == pairs.len() as u64 && chain <= shape.greatest_chain() as u64
}
