//! What stands in the memory of a map and in the tables that a call leaves: words and numbers by
//! rows, where everything else here goes by codes.
use super::network::{are_sound_figures, Distances, Figures, Network, Pairs};
use super::opening::{Map, Status, Work};
use super::rows::Rows;
use super::shape::Shape;
use super::words::{bits_of_table, row_of_set, table_of_bits};
use std::collections::BTreeSet;

/// The hop of a closed row, and the bound of a depot that has none.
pub const CLOSED: u16 = 65_535;

/// Record, row codes, link table and pair table, sound or not.
#[derive(Clone, Debug, PartialEq)]
pub struct Memory {
    pub shape: &'static Shape,
    pub open: Vec<u64>,
    pub number: u64,
    pub chain: u64,
    pub count: u64,
    pub yards: Vec<u64>,
    /// The codes of the rows; where a code is its row there are none.
    pub codes: Vec<u16>,
    pub links: Vec<u64>,
    pub pairs: Vec<u64>,
}

impl Memory {
    /// The empty map.
    pub fn empty(shape: &'static Shape) -> Memory {
        Memory {
            shape,
            open: vec![0; shape.words()],
            number: 0,
            chain: 0,
            count: 0,
            yards: vec![0; shape.words()],
            codes: vec![0; shape.row_codes()],
            links: vec![0; shape.table()],
            pairs: vec![0; shape.table()],
        }
    }

    /// Takes over a map. The code of a row that is closed before and after stays, whatever it is;
    /// that of a row that closes is zeroed.
    pub fn store(&mut self, map: &Map) {
        let words = self.shape.words();
        if let Rows::Arrivals(codes) = &map.rows {
            let before = self.number as usize;
            for (row, place) in self.codes.iter_mut().enumerate().take(before.max(codes.len())) {
                *place = codes.get(row).map_or(0, |&code| code as u16);
            }
        }
        self.open = row_of_set(words, &map.rows.of(&map.network.open));
        self.number = map.network.open.len() as u64;
        self.yards = row_of_set(words, &map.rows.of(&map.network.yards));
        self.links = table_of_bits(words, map.network.bits().map(|(u, v)| (map.rows.row(u), map.rows.row(v))));
        self.chain = map.figures.chain as u64;
        self.count = map.figures.pairs.len() as u64;
        self.pairs = table_of_bits(words, map.figures.pairs.iter().map(|&(u, v)| map.rows.pair(u, v)));
    }

    /// The memory of a map whose other row codes are zero.
    pub fn of(map: &Map) -> Memory {
        let mut memory = Memory::empty(map.shape);
        memory.store(map);
        memory
    }

    /// The network by rows.
    fn network(&self) -> Network {
        Network::of(self.shape, &self.open, &self.yards, &self.links)
    }

    /// The stored pairs, as (row, place).
    fn pair_bits(&self) -> Pairs {
        bits_of_table(self.shape.words(), &self.pairs)
    }

    /// Whether the open rows are the first, and no two of them have one code: asked where rows have
    /// codes of their own.
    fn are_sound_rows(&self, network: &Network) -> bool {
        if !self.shape.by_arrival {
            return true;
        }
        let number = network.open.len();
        let codes: BTreeSet<u16> = self.codes[..number].iter().copied().collect();
        network.open.iter().copied().eq(0..number) && codes.len() == number
    }

    /// 2 and 3 of a call that looks at the links only, 0 for none.
    pub fn links_refusal(&self) -> u8 {
        let network = self.network();
        if !network.is_sound(self.number) || !self.are_sound_rows(&network) {
            2
        } else if network.is_apart() {
            3
        } else {
            0
        }
    }

    /// 2 and 3 of a call that looks at the figures too, 0 for none.
    pub fn refusal(&self) -> u8 {
        let refusal = self.links_refusal();
        let is_sound = || are_sound_figures(self.shape, &self.network(), &self.pair_bits(), self.chain, self.count);
        if refusal != 2 && !is_sound() {
            return 2;
        }
        refusal
    }

    /// The map that stands here: links and pairs are sound.
    pub fn map(&self) -> Map {
        let rows = if self.shape.by_arrival {
            Rows::Arrivals(self.codes[..self.number as usize].iter().map(|&code| code.into()).collect())
        } else {
            Rows::Codes
        };
        let pairs = self.pair_bits().into_iter().map(|(u, v)| rows.coded(u, v)).collect();
        Map { shape: self.shape, network: self.network().by_code(&rows), figures: Figures { chain: self.chain as usize, pairs }, rows }
    }
}

/// Hop table and layer rows as a search leaves them.
#[derive(Clone, Debug, PartialEq)]
pub struct Searched {
    pub hops: Vec<u16>,
    pub even: Vec<u64>,
    pub odd: Vec<u64>,
}

impl Searched {
    /// Rules 3.1 and 3.2: yards are in them, so that the last layer's row goes by its depth.
    pub fn of(shape: &Shape, rows: &Rows, distances: &Distances) -> Searched {
        let mut hops = vec![CLOSED; shape.places];
        for (code, d) in distances.reached() {
            hops[rows.row(code)] = d as u16;
        }
        let depth = distances.depth();
        let layer = |d: usize| row_of_set(shape.words(), &rows.of(&distances.layer(d)));
        let before = if depth == 0 { vec![0; shape.words()] } else { layer(depth - 1) };
        let (even, odd) = if depth % 2 == 0 { (layer(depth), before) } else { (before, layer(depth)) };
        Searched { hops, even, odd }
    }
}

/// Bound and skip table as a call with rounds or a single search leaves them.
#[derive(Clone, Debug, PartialEq)]
pub struct Marks {
    pub bounds: Vec<u16>,
    pub skips: Vec<u16>,
}

impl Marks {
    pub fn of(shape: &Shape, rows: &Rows, work: &Work) -> Marks {
        let mut marks = Marks { bounds: vec![CLOSED; shape.places], skips: vec![shape.other; shape.places] };
        for (&code, status) in &work.status {
            let row = rows.row(code);
            (marks.bounds[row], marks.skips[row]) = match status {
                Status::Searched(e) => (*e as u16, shape.searched),
                Status::Skipped(bound, by) => (*bound as u16, rows.row(*by) as u16),
                Status::Remaining(_) => (CLOSED, shape.other),
            };
        }
        marks
    }

    /// The number of places that are marked as searched.
    pub fn searches(&self, shape: &Shape) -> usize {
        self.skips.iter().filter(|&&mark| mark == shape.searched).count()
    }
}
