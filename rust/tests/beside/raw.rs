//! The C functions, each over the memory that a test lends.
use crate::lent::{Buffer, Lent};
use crate::plain::lines::Fields;
// The crate brings the archive.
use zorpedi as _;

#[path = "../../src/c.rs"]
mod c;

// SAFETY, of all calls below: each buffer is a vector of its own with at least as many elements as are lent, and each number a place of its own.

pub fn version() -> u32 {
    unsafe { c::zorpedi_version() }
}

pub fn empty(m: &mut Lent) -> u8 {
    let (r, l, p) = (&mut m.record, &mut m.links, &mut m.pairs);
    unsafe { c::zorpedi_empty(r.pointer(), r.lent, l.pointer(), l.lent, p.pointer(), p.lent) }
}

#[rustfmt::skip]
pub fn search(m: &mut Lent, code: u8) -> u8 {
    unsafe {
        c::zorpedi_search(
            m.record.pointer(), m.record.lent, m.links.pointer(), m.links.lent, m.hops.pointer(), m.hops.lent,
            m.even.pointer(), m.even.lent, m.odd.pointer(), m.odd.lent, &mut m.eccentricity, &mut m.depth, code,
        )
    }
}

#[rustfmt::skip]
pub fn within(m: &mut Lent, code: u8, k: u32) -> u8 {
    unsafe {
        c::zorpedi_within(
            m.record.pointer(), m.record.lent, m.links.pointer(), m.links.lent, m.hops.pointer(), m.hops.lent,
            m.even.pointer(), m.even.lent, m.odd.pointer(), m.odd.lent, m.codes.pointer(), m.codes.lent, &mut m.count, code, k,
        )
    }
}

#[rustfmt::skip]
pub fn nearest(m: &mut Lent, code: u8) -> u8 {
    unsafe {
        c::zorpedi_nearest(
            m.record.pointer(), m.record.lent, m.links.pointer(), m.links.lent, m.hops.pointer(), m.hops.lent,
            m.even.pointer(), m.even.lent, m.odd.pointer(), m.odd.lent, &mut m.found, &mut m.distance, code,
            m.input.pointer(), m.input.lent,
        )
    }
}

#[rustfmt::skip]
pub fn summary(m: &mut Lent) -> u8 {
    unsafe {
        c::zorpedi_summary(
            m.record.pointer(), m.record.lent, m.links.pointer(), m.links.lent, m.hops.pointer(), m.hops.lent,
            m.even.pointer(), m.even.lent, m.odd.pointer(), m.odd.lent, m.counts.pointer(), m.counts.lent,
            &mut m.sum, &mut m.pair_number, &mut m.quotient, &mut m.remainder,
        )
    }
}

#[rustfmt::skip]
pub fn reckon(m: &mut Lent) -> u8 {
    unsafe {
        c::zorpedi_reckon(
            m.record.pointer(), m.record.lent, m.links.pointer(), m.links.lent, m.pairs.pointer(), m.pairs.lent,
            m.hops.pointer(), m.hops.lent, m.bounds.pointer(), m.bounds.lent, m.skips.pointer(), m.skips.lent,
            m.even.pointer(), m.even.lent, m.odd.pointer(), m.odd.lent, &mut m.searches,
        )
    }
}

#[rustfmt::skip]
pub fn open(m: &mut Lent, code: u8) -> u8 {
    unsafe {
        c::zorpedi_open(
            m.record.pointer(), m.record.lent, m.links.pointer(), m.links.lent, m.pairs.pointer(), m.pairs.lent,
            m.hops.pointer(), m.hops.lent, m.bounds.pointer(), m.bounds.lent, m.skips.pointer(), m.skips.lent,
            m.even.pointer(), m.even.lent, m.odd.pointer(), m.odd.lent, &mut m.searches, code,
            m.input.pointer(), m.input.lent,
        )
    }
}

#[rustfmt::skip]
pub fn open_yard(m: &mut Lent, code: u8) -> u8 {
    unsafe {
        c::zorpedi_open_yard(
            m.record.pointer(), m.record.lent, m.links.pointer(), m.links.lent, m.pairs.pointer(), m.pairs.lent,
            m.hops.pointer(), m.hops.lent, m.bounds.pointer(), m.bounds.lent, m.skips.pointer(), m.skips.lent,
            m.even.pointer(), m.even.lent, m.odd.pointer(), m.odd.lent, &mut m.searches, code,
            m.input.pointer(), m.input.lent,
        )
    }
}

#[rustfmt::skip]
pub fn link(m: &mut Lent, first: u8, second: u8) -> u8 {
    unsafe {
        c::zorpedi_link(
            m.record.pointer(), m.record.lent, m.links.pointer(), m.links.lent, m.pairs.pointer(), m.pairs.lent,
            m.hops.pointer(), m.hops.lent, m.bounds.pointer(), m.bounds.lent, m.skips.pointer(), m.skips.lent,
            m.even.pointer(), m.even.lent, m.odd.pointer(), m.odd.lent, &mut m.searches, first, second,
        )
    }
}

#[rustfmt::skip]
pub fn open_batch(m: &mut Lent) -> u8 {
    unsafe {
        c::zorpedi_open_batch(
            m.record.pointer(), m.record.lent, m.links.pointer(), m.links.lent, m.pairs.pointer(), m.pairs.lent,
            m.hops.pointer(), m.hops.lent, m.bounds.pointer(), m.bounds.lent, m.skips.pointer(), m.skips.lent,
            m.even.pointer(), m.even.lent, m.odd.pointer(), m.odd.lent, m.left.pointer(), m.left.lent, &mut m.left_count,
            m.input.pointer(), m.input.lent,
        )
    }
}

#[rustfmt::skip]
pub fn read_notice(m: &mut Lent) -> u8 {
    unsafe {
        c::zorpedi_read_notice(
            m.frame.pointer(), m.frame.lent, &mut m.length, &mut m.used, m.input.pointer(), m.input.lent,
        )
    }
}

pub fn write_notice(m: &mut Lent) -> u8 {
    unsafe { c::zorpedi_write_notice(m.line.pointer(), m.line.lent, &mut m.length, m.input.pointer(), m.input.lent) }
}

#[rustfmt::skip]
pub fn report(m: &mut Lent, f: Fields) -> u8 {
    unsafe {
        c::zorpedi_report(
            m.out.pointer(), m.out.lent, &mut m.length, f.number, f.answer, f.depots, f.chain, f.pairs, f.searches,
        )
    }
}

/// An outcome in the numbers of the C functions.
#[derive(Clone, Copy, Debug, PartialEq)]
pub struct Numbers {
    pub kind: u8,
    pub code: u16,
    pub other: u16,
    pub letter: u8,
    pub refusal: u8,
    pub depots: u16,
    pub chain: u16,
    pub pairs: u32,
    pub searches: u16,
}

#[rustfmt::skip]
pub fn sentence(line: &mut Buffer<u8>, length: &mut usize, n: &Numbers) -> u8 {
    unsafe {
        c::zorpedi_sentence(
            line.pointer(), line.lent, length, n.kind, n.code, n.other, n.letter, n.refusal, n.depots, n.chain, n.pairs, n.searches,
        )
    }
}

#[rustfmt::skip]
pub fn read_sentence(n: &mut Numbers, text: &mut Buffer<u8>) -> u8 {
    unsafe {
        c::zorpedi_read_sentence(
            &mut n.kind, &mut n.code, &mut n.other, &mut n.letter, &mut n.refusal, &mut n.depots, &mut n.chain, &mut n.pairs,
            &mut n.searches, text.pointer(), text.lent,
        )
    }
}

#[rustfmt::skip]
pub fn feed(m: &mut Lent) -> u8 {
    unsafe {
        c::zorpedi_feed(
            m.record.pointer(), m.record.lent, m.links.pointer(), m.links.lent, m.pairs.pointer(), m.pairs.lent,
            m.hops.pointer(), m.hops.lent, m.bounds.pointer(), m.bounds.lent, m.skips.pointer(), m.skips.lent,
            m.even.pointer(), m.even.lent, m.odd.pointer(), m.odd.lent, m.line.pointer(), m.line.lent,
            m.out.pointer(), m.out.lent, &mut m.lines, &mut m.held, &mut m.used, &mut m.written,
            m.input.pointer(), m.input.lent,
        )
    }
}

#[rustfmt::skip]
pub fn finish(m: &mut Lent) -> u8 {
    unsafe {
        c::zorpedi_finish(
            m.record.pointer(), m.record.lent, m.links.pointer(), m.links.lent, m.pairs.pointer(), m.pairs.lent,
            m.hops.pointer(), m.hops.lent, m.bounds.pointer(), m.bounds.lent, m.skips.pointer(), m.skips.lent,
            m.even.pointer(), m.even.lent, m.odd.pointer(), m.odd.lent, m.line.pointer(), m.line.lent,
            m.out.pointer(), m.out.lent, &mut m.lines, &mut m.held, &mut m.written,
        )
    }
}
