//! The memory that a test lends: each buffer with what stands behind it, so that a write past its end shows.
use crate::expected::{PLACES, RECORD, TABLE, WORDS};
use crate::plain::TODAY;

/// Of `data` the first `lent` elements are lent; the rest must never change.
#[derive(Clone, Debug, PartialEq)]
pub struct Buffer<T> {
    pub data: Vec<T>,
    pub lent: usize,
}

impl<T: Clone> Buffer<T> {
    pub fn new(data: Vec<T>) -> Buffer<T> {
        Buffer { lent: data.len(), data }
    }

    pub fn pointer(&mut self) -> *mut T {
        assert!(self.lent <= self.data.len());
        self.data.as_mut_ptr()
    }
}

/// All that any call is lent.
#[derive(Clone, Debug, PartialEq)]
pub struct Lent {
    pub record: Buffer<u64>,
    pub links: Buffer<u64>,
    pub pairs: Buffer<u64>,
    pub hops: Buffer<u16>,
    pub bounds: Buffer<u16>,
    pub skips: Buffer<u16>,
    pub even: Buffer<u64>,
    pub odd: Buffer<u64>,
    pub frame: Buffer<u8>,
    pub line: Buffer<u8>,
    pub out: Buffer<u8>,
    pub codes: Buffer<u8>,
    pub left: Buffer<u8>,
    pub counts: Buffer<u16>,
    /// What a call is lent to read: neighbours, a list of codes, an input, a frame, a piece, the lines of a batch.
    pub input: Buffer<u8>,
    pub eccentricity: u16,
    pub depth: u16,
    pub searches: u16,
    pub count: u16,
    pub found: u8,
    pub distance: u16,
    pub left_count: u8,
    pub sum: u64,
    pub pair_number: u64,
    pub quotient: u64,
    pub remainder: u64,
    pub length: usize,
    pub used: usize,
    pub written: usize,
    pub held: usize,
    pub lines: u32,
}

/// The named size of each buffer, in the order of `set_lent`.
pub const SIZES: [usize; 14] =
    [RECORD, TABLE, TABLE, PLACES, PLACES, PLACES, WORDS, WORDS, TODAY.frame, TODAY.line, 48, PLACES, 64, PLACES];

impl Lent {
    /// Lends `size` elements of buffer `which`; there have to be that many.
    pub fn set_lent(&mut self, which: usize, size: usize) {
        let place = match which {
            0 => &mut self.record.lent,
            1 => &mut self.links.lent,
            2 => &mut self.pairs.lent,
            3 => &mut self.hops.lent,
            4 => &mut self.bounds.lent,
            5 => &mut self.skips.lent,
            6 => &mut self.even.lent,
            7 => &mut self.odd.lent,
            8 => &mut self.frame.lent,
            9 => &mut self.line.lent,
            10 => &mut self.out.lent,
            11 => &mut self.codes.lent,
            12 => &mut self.left.lent,
            _ => &mut self.counts.lent,
        };
        *place = size;
    }

    pub fn input(&self) -> Vec<u8> {
        self.input.data[..self.input.lent].to_vec()
    }

    /// The first difference, in words; a whole print would be thousands of numbers.
    pub fn difference(&self, other: &Lent) -> Option<String> {
        fn first<T: PartialEq + std::fmt::Debug>(name: &str, a: &Buffer<T>, b: &Buffer<T>) -> Option<String> {
            let at = a.data.iter().zip(&b.data).position(|(x, y)| x != y)?;
            Some(format!("{name}[{at}]: expected {:?}, got {:?} ({} lent)", a.data[at], b.data[at], a.lent))
        }
        fn number(name: &str, a: u64, b: u64) -> Option<String> {
            (a != b).then(|| format!("{name}: expected {a}, got {b}"))
        }
        first("record", &self.record, &other.record)
            .or_else(|| first("links", &self.links, &other.links))
            .or_else(|| first("pairs", &self.pairs, &other.pairs))
            .or_else(|| first("hops", &self.hops, &other.hops))
            .or_else(|| first("bounds", &self.bounds, &other.bounds))
            .or_else(|| first("skips", &self.skips, &other.skips))
            .or_else(|| first("even", &self.even, &other.even))
            .or_else(|| first("odd", &self.odd, &other.odd))
            .or_else(|| first("frame", &self.frame, &other.frame))
            .or_else(|| first("line", &self.line, &other.line))
            .or_else(|| first("out", &self.out, &other.out))
            .or_else(|| first("codes", &self.codes, &other.codes))
            .or_else(|| first("left", &self.left, &other.left))
            .or_else(|| first("counts", &self.counts, &other.counts))
            .or_else(|| first("input", &self.input, &other.input))
            .or_else(|| number("eccentricity", self.eccentricity.into(), other.eccentricity.into()))
            .or_else(|| number("depth", self.depth.into(), other.depth.into()))
            .or_else(|| number("searches", self.searches.into(), other.searches.into()))
            .or_else(|| number("count", self.count.into(), other.count.into()))
            .or_else(|| number("found", self.found.into(), other.found.into()))
            .or_else(|| number("distance", self.distance.into(), other.distance.into()))
            .or_else(|| number("left_count", self.left_count.into(), other.left_count.into()))
            .or_else(|| number("sum", self.sum, other.sum))
            .or_else(|| number("pair_number", self.pair_number, other.pair_number))
            .or_else(|| number("quotient", self.quotient, other.quotient))
            .or_else(|| number("remainder", self.remainder, other.remainder))
            .or_else(|| number("length", self.length as u64, other.length as u64))
            .or_else(|| number("used", self.used as u64, other.used as u64))
            .or_else(|| number("written", self.written as u64, other.written as u64))
            .or_else(|| number("held", self.held as u64, other.held as u64))
            .or_else(|| number("lines", self.lines.into(), other.lines.into()))
            .or_else(|| (self != other).then(|| "sizes differ".to_string()))
    }
}
