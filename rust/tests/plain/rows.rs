//! Which row of the tables each open depot has.
use super::shape::Shape;
use std::collections::BTreeSet;

#[derive(Clone, Debug, PartialEq)]
pub enum Rows {
    /// Row c is that of code c.
    Codes,
    /// The codes of the first rows, in their order; no other row is open.
    Arrivals(Vec<usize>),
}

impl Rows {
    pub fn empty(shape: &Shape) -> Rows {
        if shape.by_arrival {
            Rows::Arrivals(Vec::new())
        } else {
            Rows::Codes
        }
    }

    /// A new depot takes the next row.
    pub fn open(&mut self, code: usize) {
        if let Rows::Arrivals(codes) = self {
            codes.push(code);
        }
    }

    /// The last row moves into the gap that a depot leaves.
    pub fn close(&mut self, code: usize) {
        if let Rows::Arrivals(codes) = self {
            let gap = codes.iter().position(|&other| other == code).expect("the depot is open");
            codes.swap_remove(gap);
        }
    }

    /// The row of an open depot.
    pub fn row(&self, code: usize) -> usize {
        match self {
            Rows::Codes => code,
            Rows::Arrivals(codes) => codes.iter().position(|&other| other == code).expect("the depot is open"),
        }
    }

    /// The code of an open row.
    pub fn code(&self, row: usize) -> usize {
        match self {
            Rows::Codes => row,
            Rows::Arrivals(codes) => codes[row],
        }
    }

    /// The rows of some open depots.
    pub fn of(&self, codes: &BTreeSet<usize>) -> BTreeSet<usize> {
        codes.iter().map(|&code| self.row(code)).collect()
    }

    /// The rows of a pair of codes, the lower one first.
    pub fn pair(&self, u: usize, v: usize) -> (usize, usize) {
        let (a, b) = (self.row(u), self.row(v));
        (a.min(b), a.max(b))
    }

    /// The codes of a pair of rows, the lower one first.
    pub fn coded(&self, u: usize, v: usize) -> (usize, usize) {
        let (a, b) = (self.code(u), self.code(v));
        (a.min(b), a.max(b))
    }
}
