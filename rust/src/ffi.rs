//! The calls of the archive, and the one place with `unsafe`: each below lends whole references, so that its pointers are
//! valid for their lengths and what is written overlaps nothing. That is all that the archive assumes of its caller.
use crate::c;
use crate::map::{Memory, Search, Summary};

/// A stream's own numbers and line buffer, beside its map.
pub struct Progress {
    pub line: [u8; 517],
    pub lines: u32,
    pub held: usize,
}

pub fn version() -> u32 {
    // SAFETY: nothing is lent.
    unsafe { c::zorpedi_version() }
}

pub fn empty(m: &mut Memory) -> u8 {
    let (r, l, p) = (&mut m.record, &mut m.links, &mut m.pairs);
    // SAFETY: whole arrays of one struct, each borrowed once.
    unsafe { c::zorpedi_empty(r.as_mut_ptr(), r.len(), l.as_mut_ptr(), l.len(), p.as_mut_ptr(), p.len()) }
}

pub fn search(m: &Memory, found: &mut Search, code: u8) -> u8 {
    let (r, l, h, e, o) = (&m.record, &m.links, &mut found.hops, &mut found.even, &mut found.odd);
    // SAFETY: whole arrays of two structs, those that are written each borrowed once, and two numbers beside them.
    unsafe {
        c::zorpedi_search(
            r.as_ptr(),
            r.len(),
            l.as_ptr(),
            l.len(),
            h.as_mut_ptr(),
            h.len(),
            e.as_mut_ptr(),
            e.len(),
            o.as_mut_ptr(),
            o.len(),
            &mut found.eccentricity,
            &mut found.depth,
            code,
        )
    }
}

/// The scratch of a search, which the calls on near depots and the summary leave behind.
fn scratch() -> Search {
    Search { eccentricity: 0, depth: 0, hops: [0; 256], even: [0; 4], odd: [0; 4] }
}

pub fn within(m: &Memory, codes: &mut [u8; 256], count: &mut u16, code: u8, k: u32) -> u8 {
    let mut left = scratch();
    let (r, l, h, e, o) = (&m.record, &m.links, &mut left.hops, &mut left.even, &mut left.odd);
    // SAFETY: whole arrays of two structs, those that are written each borrowed once, and an array and a number beside them.
    unsafe {
        c::zorpedi_within(
            r.as_ptr(),
            r.len(),
            l.as_ptr(),
            l.len(),
            h.as_mut_ptr(),
            h.len(),
            e.as_mut_ptr(),
            e.len(),
            o.as_mut_ptr(),
            o.len(),
            codes.as_mut_ptr(),
            codes.len(),
            count,
            code,
            k,
        )
    }
}

pub fn nearest(m: &Memory, found: &mut u8, distance: &mut u16, code: u8, listed: &[u8]) -> u8 {
    let mut left = scratch();
    let (r, l, h, e, o) = (&m.record, &m.links, &mut left.hops, &mut left.even, &mut left.odd);
    // SAFETY: whole arrays of two structs, those that are written each borrowed once, and two numbers and a slice beside them.
    unsafe {
        c::zorpedi_nearest(
            r.as_ptr(),
            r.len(),
            l.as_ptr(),
            l.len(),
            h.as_mut_ptr(),
            h.len(),
            e.as_mut_ptr(),
            e.len(),
            o.as_mut_ptr(),
            o.len(),
            found,
            distance,
            code,
            listed.as_ptr(),
            listed.len(),
        )
    }
}

pub fn summary(m: &Memory, summed: &mut Summary) -> u8 {
    let mut left = scratch();
    let (r, l, h, e, o) = (&m.record, &m.links, &mut left.hops, &mut left.even, &mut left.odd);
    // SAFETY: whole arrays of three structs, those that are written each borrowed once, and four numbers of the last.
    unsafe {
        c::zorpedi_summary(
            r.as_ptr(),
            r.len(),
            l.as_ptr(),
            l.len(),
            h.as_mut_ptr(),
            h.len(),
            e.as_mut_ptr(),
            e.len(),
            o.as_mut_ptr(),
            o.len(),
            summed.counts.as_mut_ptr(),
            summed.counts.len(),
            &mut summed.sum,
            &mut summed.pairs,
            &mut summed.quotient,
            &mut summed.remainder,
        )
    }
}

pub fn reckon(m: &mut Memory, searches: &mut u16) -> u8 {
    // SAFETY: whole arrays of one struct, each named once, and one number beside them.
    unsafe {
        c::zorpedi_reckon(
            m.record.as_mut_ptr(),
            m.record.len(),
            m.links.as_ptr(),
            m.links.len(),
            m.pairs.as_mut_ptr(),
            m.pairs.len(),
            m.hops.as_mut_ptr(),
            m.hops.len(),
            m.bounds.as_mut_ptr(),
            m.bounds.len(),
            m.skips.as_mut_ptr(),
            m.skips.len(),
            m.even.as_mut_ptr(),
            m.even.len(),
            m.odd.as_mut_ptr(),
            m.odd.len(),
            searches,
        )
    }
}

pub fn open(m: &mut Memory, searches: &mut u16, code: u8, neighbours: &[u8]) -> u8 {
    // SAFETY: whole arrays of one struct, each named once, and a number and a slice beside them.
    unsafe {
        c::zorpedi_open(
            m.record.as_mut_ptr(),
            m.record.len(),
            m.links.as_mut_ptr(),
            m.links.len(),
            m.pairs.as_mut_ptr(),
            m.pairs.len(),
            m.hops.as_mut_ptr(),
            m.hops.len(),
            m.bounds.as_mut_ptr(),
            m.bounds.len(),
            m.skips.as_mut_ptr(),
            m.skips.len(),
            m.even.as_mut_ptr(),
            m.even.len(),
            m.odd.as_mut_ptr(),
            m.odd.len(),
            searches,
            code,
            neighbours.as_ptr(),
            neighbours.len(),
        )
    }
}

pub fn open_yard(m: &mut Memory, searches: &mut u16, code: u8, neighbours: &[u8]) -> u8 {
    // SAFETY: whole arrays of one struct, each named once, and a number and a slice beside them.
    unsafe {
        c::zorpedi_open_yard(
            m.record.as_mut_ptr(),
            m.record.len(),
            m.links.as_mut_ptr(),
            m.links.len(),
            m.pairs.as_mut_ptr(),
            m.pairs.len(),
            m.hops.as_mut_ptr(),
            m.hops.len(),
            m.bounds.as_mut_ptr(),
            m.bounds.len(),
            m.skips.as_mut_ptr(),
            m.skips.len(),
            m.even.as_mut_ptr(),
            m.even.len(),
            m.odd.as_mut_ptr(),
            m.odd.len(),
            searches,
            code,
            neighbours.as_ptr(),
            neighbours.len(),
        )
    }
}

pub fn link(m: &mut Memory, searches: &mut u16, first: u8, second: u8) -> u8 {
    // SAFETY: whole arrays of one struct, each named once, and one number beside them.
    unsafe {
        c::zorpedi_link(
            m.record.as_mut_ptr(),
            m.record.len(),
            m.links.as_mut_ptr(),
            m.links.len(),
            m.pairs.as_mut_ptr(),
            m.pairs.len(),
            m.hops.as_mut_ptr(),
            m.hops.len(),
            m.bounds.as_mut_ptr(),
            m.bounds.len(),
            m.skips.as_mut_ptr(),
            m.skips.len(),
            m.even.as_mut_ptr(),
            m.even.len(),
            m.odd.as_mut_ptr(),
            m.odd.len(),
            searches,
            first,
            second,
        )
    }
}

pub fn open_batch(m: &mut Memory, left: &mut [u8; 64], count: &mut u8, lines: &[u8]) -> u8 {
    // SAFETY: whole arrays of one struct, each named once, and an array, a number and a slice beside them.
    unsafe {
        c::zorpedi_open_batch(
            m.record.as_mut_ptr(),
            m.record.len(),
            m.links.as_mut_ptr(),
            m.links.len(),
            m.pairs.as_mut_ptr(),
            m.pairs.len(),
            m.hops.as_mut_ptr(),
            m.hops.len(),
            m.bounds.as_mut_ptr(),
            m.bounds.len(),
            m.skips.as_mut_ptr(),
            m.skips.len(),
            m.even.as_mut_ptr(),
            m.even.len(),
            m.odd.as_mut_ptr(),
            m.odd.len(),
            left.as_mut_ptr(),
            left.len(),
            count,
            lines.as_ptr(),
            lines.len(),
        )
    }
}

pub fn read_notice(frame: &mut [u8], length: &mut usize, used: &mut usize, input: &[u8]) -> u8 {
    // SAFETY: two slices and two numbers, by their references.
    unsafe { c::zorpedi_read_notice(frame.as_mut_ptr(), frame.len(), length, used, input.as_ptr(), input.len()) }
}

pub fn write_notice(line: &mut [u8], length: &mut usize, frame: &[u8]) -> u8 {
    // SAFETY: two slices and a number, by their references.
    unsafe { c::zorpedi_write_notice(line.as_mut_ptr(), line.len(), length, frame.as_ptr(), frame.len()) }
}

/// What a report line says, in the numbers of the C function.
pub struct Fields {
    pub number: u32,
    pub answer: u8,
    pub depots: u16,
    pub chain: u16,
    pub pairs: u32,
    pub searches: u16,
}

pub fn report(line: &mut [u8], length: &mut usize, f: &Fields) -> u8 {
    // SAFETY: a slice and a number, by their references.
    unsafe { c::zorpedi_report(line.as_mut_ptr(), line.len(), length, f.number, f.answer, f.depots, f.chain, f.pairs, f.searches) }
}

/// An outcome in the numbers of the C functions.
#[derive(Default)]
pub struct Told {
    pub kind: u8,
    pub code: u16,
    pub other: u16,
    pub letter: u8,
    pub refusal: u8,
    pub depots: u16,
    pub chain: u16,
    pub pairs: u32,
    pub searches: u16,
}

pub fn sentence(line: &mut [u8], length: &mut usize, t: &Told) -> u8 {
    // SAFETY: a slice and a number, by their references.
    unsafe {
        c::zorpedi_sentence(
            line.as_mut_ptr(),
            line.len(),
            length,
            t.kind,
            t.code,
            t.other,
            t.letter,
            t.refusal,
            t.depots,
            t.chain,
            t.pairs,
            t.searches,
        )
    }
}

pub fn read_sentence(t: &mut Told, text: &[u8]) -> u8 {
    // SAFETY: the numbers of one struct, each named once, and a slice beside them.
    unsafe {
        c::zorpedi_read_sentence(
            &mut t.kind,
            &mut t.code,
            &mut t.other,
            &mut t.letter,
            &mut t.refusal,
            &mut t.depots,
            &mut t.chain,
            &mut t.pairs,
            &mut t.searches,
            text.as_ptr(),
            text.len(),
        )
    }
}

pub fn feed(m: &mut Memory, p: &mut Progress, out: &mut [u8], used: &mut usize, written: &mut usize, piece: &[u8]) -> u8 {
    // SAFETY: whole arrays of two structs, each named once, and slices and numbers beside them.
    unsafe {
        c::zorpedi_feed(
            m.record.as_mut_ptr(),
            m.record.len(),
            m.links.as_mut_ptr(),
            m.links.len(),
            m.pairs.as_mut_ptr(),
            m.pairs.len(),
            m.hops.as_mut_ptr(),
            m.hops.len(),
            m.bounds.as_mut_ptr(),
            m.bounds.len(),
            m.skips.as_mut_ptr(),
            m.skips.len(),
            m.even.as_mut_ptr(),
            m.even.len(),
            m.odd.as_mut_ptr(),
            m.odd.len(),
            p.line.as_mut_ptr(),
            p.line.len(),
            out.as_mut_ptr(),
            out.len(),
            &mut p.lines,
            &mut p.held,
            used,
            written,
            piece.as_ptr(),
            piece.len(),
        )
    }
}

pub fn finish(m: &mut Memory, p: &mut Progress, out: &mut [u8], written: &mut usize) -> u8 {
    // SAFETY: whole arrays of two structs, each named once, and a slice and a number beside them.
    unsafe {
        c::zorpedi_finish(
            m.record.as_mut_ptr(),
            m.record.len(),
            m.links.as_mut_ptr(),
            m.links.len(),
            m.pairs.as_mut_ptr(),
            m.pairs.len(),
            m.hops.as_mut_ptr(),
            m.hops.len(),
            m.bounds.as_mut_ptr(),
            m.bounds.len(),
            m.skips.as_mut_ptr(),
            m.skips.len(),
            m.even.as_mut_ptr(),
            m.even.len(),
            m.odd.as_mut_ptr(),
            m.odd.len(),
            p.line.as_ptr(),
            p.line.len(),
            out.as_mut_ptr(),
            out.len(),
            &mut p.lines,
            &mut p.held,
            written,
        )
    }
}
