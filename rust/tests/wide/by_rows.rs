//! Rounds and figures once more, by rows and from the words of the tables, with a table of all
//! distances that no search finds: it looks at every way through one more depot. Codes are used for
//! ties alone.
use crate::plain::memory::{Marks, Memory, Searched, CLOSED};
use crate::plain::network::Pairs;

/// More than any distance.
const FAR: usize = 1_000_000;

/// What stands in a sound memory that hangs together.
pub struct ByRows<'m> {
    memory: &'m Memory,
    pub number: usize,
    distances: Vec<Vec<usize>>,
    eccentricities: Vec<usize>,
}

impl ByRows<'_> {
    pub fn of(memory: &Memory) -> ByRows<'_> {
        let number = memory.number as usize;
        let words = memory.shape.words();
        let is_linked = |u: usize, v: usize| memory.links[words * u + v / 64] >> (v % 64) & 1 == 1;
        let start = |u: usize, v: usize| {
            if u == v {
                0
            } else if is_linked(u, v) {
                1
            } else {
                FAR
            }
        };
        let mut distances: Vec<Vec<usize>> = (0..number).map(|u| (0..number).map(|v| start(u, v)).collect()).collect();
        for through in 0..number {
            let from = distances[through].clone();
            for row in &mut distances {
                let first = row[through];
                for (place, rest) in row.iter_mut().zip(&from) {
                    *place = (*place).min(first + rest);
                }
            }
        }
        assert!(distances.iter().flatten().all(|&d| d < FAR), "the network is apart");
        let mut rows = ByRows { memory, number, distances, eccentricities: Vec::new() };
        rows.eccentricities = (0..number).map(|u| rows.delivering().map(|v| rows.distances[u][v]).max().unwrap_or(0)).collect();
        rows
    }

    pub fn distance(&self, u: usize, v: usize) -> usize {
        self.distances[u][v]
    }

    fn code(&self, row: usize) -> u16 {
        self.memory.codes[row]
    }

    fn degree(&self, row: usize) -> usize {
        self.distances[row].iter().filter(|&&d| d == 1).count()
    }

    pub fn delivers(&self, row: usize) -> bool {
        self.memory.yards[row / 64] >> (row % 64) & 1 == 0
    }

    fn delivering(&self) -> impl Iterator<Item = usize> + '_ {
        (0..self.number).filter(|&row| self.delivers(row))
    }

    pub fn eccentricity(&self, u: usize) -> usize {
        self.eccentricities[u]
    }

    pub fn chain(&self) -> usize {
        self.delivering().map(|u| self.eccentricity(u)).max().unwrap_or(0)
    }

    /// The rows u < v that deliver and are so far apart.
    pub fn pairs_at(&self, distance: usize) -> Pairs {
        let partners = |u: usize| self.delivering().filter(move |&v| u < v && self.distances[u][v] == distance).map(move |v| (u, v));
        self.delivering().flat_map(partners).collect()
    }

    /// Sum and number of the distances of two rows that deliver.
    pub fn sum(&self) -> (u64, u64) {
        let of = |u: usize| self.delivering().filter(move |&v| u < v).map(move |v| self.distances[u][v] as u64);
        self.delivering().flat_map(of).fold((0, 0), |(sum, n), d| (sum + d, n + 1))
    }

    /// Hop table and layer rows after a search from this row.
    pub fn searched(&self, from: usize) -> Searched {
        let (places, words) = (self.memory.shape.places, self.memory.shape.words());
        let mut searched = Searched { hops: vec![CLOSED; places], even: vec![0; words], odd: vec![0; words] };
        let depth = self.distances[from].iter().copied().max().unwrap_or(0);
        for (v, &d) in self.distances[from].iter().enumerate() {
            searched.hops[v] = d as u16;
            if d + 1 >= depth {
                let row = if d % 2 == 0 { &mut searched.even } else { &mut searched.odd };
                row[v / 64] |= 1 << (v % 64);
            }
        }
        searched
    }

    /// Marks where these rows alone were searched.
    pub fn marks_of(&self, rows: &[usize]) -> Marks {
        let shape = self.memory.shape;
        let mut marks = Marks { bounds: vec![CLOSED; shape.places], skips: vec![shape.other; shape.places] };
        for &row in rows {
            (marks.bounds[row], marks.skips[row]) = (self.eccentricity(row) as u16, shape.searched);
        }
        marks
    }

    /// Rounds from a candidate without pairs. These references come first, and nothing is skipped
    /// before the last of them.
    pub fn rounds(&self, candidate: usize, firsts: &[usize]) -> Rounds {
        let shape = self.memory.shape;
        let mut rounds = Rounds { chain: candidate, pairs: Pairs::new(), references: Vec::new(), marks: self.marks_of(&[]) };
        let mut remains: Vec<bool> = vec![true; self.number];
        loop {
            let turn = rounds.references.len();
            let next = firsts.get(turn).copied().or_else(|| {
                let remaining = (0..self.number).filter(|&row| remains[row]);
                remaining.max_by_key(|&row| (self.degree(row), 65_535 - self.code(row)))
            });
            let Some(r) = next else { return rounds };
            let e = self.eccentricity(r);
            remains[r] = false;
            rounds.references.push(r);
            (rounds.marks.bounds[r], rounds.marks.skips[r]) = (e as u16, shape.searched);
            if self.delivers(r) && e > 0 && e >= rounds.chain {
                if e > rounds.chain {
                    (rounds.chain, rounds.pairs) = (e, Pairs::new());
                }
                rounds.pairs.extend(self.delivering().filter(|&v| self.distances[r][v] == e).map(|v| (r.min(v), r.max(v))));
            }
            if turn + 1 < firsts.len() {
                continue;
            }
            for v in (0..self.number).filter(|&v| remains[v]).collect::<Vec<_>>() {
                // the least bound of all references so far, and the first of those that give it
                let bound = |&by: &usize| self.eccentricity(by) + self.distances[by][v];
                let by = rounds.references.iter().copied().min_by_key(bound).expect("there is a reference");
                if bound(&by) < rounds.chain {
                    remains[v] = false;
                    (rounds.marks.bounds[v], rounds.marks.skips[v]) = (bound(&by) as u16, by as u16);
                }
            }
        }
    }
}

/// What rounds leave, by rows.
pub struct Rounds {
    pub chain: usize,
    pub pairs: Pairs,
    pub references: Vec<usize>,
    pub marks: Marks,
}
