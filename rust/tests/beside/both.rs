//! Each call made both ways, by the archive and by the plain implementation, from the same memory.
use crate::lent::{Buffer, Lent};
use crate::plain::lines::Fields;
use crate::{expected, raw};

/// Holds the two ways equal; answers the number, and leaves the memory as the call left it.
fn beside(what: &str, m: &mut Lent, plainly: impl Fn(&mut Lent) -> u8, call: impl Fn(&mut Lent) -> u8) -> u8 {
    let start = m.clone();
    let mut expected = m.clone();
    let number = plainly(&mut expected);
    let answer = call(m);
    assert_eq!(answer, number, "{what}: the answer");
    if let Some(difference) = expected.difference(m) {
        panic!("{what}, answer {answer}: {difference}");
    }
    // The plain way is held to the rule too.
    if (1..=15).contains(&answer) {
        assert!(*m == start, "{what}: refused with {answer}, and something changed");
    }
    answer
}

pub fn empty(m: &mut Lent) -> u8 {
    beside("empty", m, expected::empty, raw::empty)
}

pub fn search(m: &mut Lent, code: u8) -> u8 {
    beside("search", m, |m| expected::search(m, code), |m| raw::search(m, code))
}

pub fn within(m: &mut Lent, code: u8, k: u32) -> u8 {
    beside("within", m, |m| expected::within(m, code, k), |m| raw::within(m, code, k))
}

pub fn nearest(m: &mut Lent, code: u8, listed: &[u8]) -> u8 {
    m.input = Buffer::new(listed.to_vec());
    beside("nearest", m, |m| expected::nearest(m, code), |m| raw::nearest(m, code))
}

pub fn summary(m: &mut Lent) -> u8 {
    beside("summary", m, expected::summary, raw::summary)
}

pub fn reckon(m: &mut Lent) -> u8 {
    beside("reckon", m, expected::reckon, raw::reckon)
}

pub fn open(m: &mut Lent, code: u8, neighbours: &[u8]) -> u8 {
    m.input = Buffer::new(neighbours.to_vec());
    beside("open", m, |m| expected::open(m, code), |m| raw::open(m, code))
}

pub fn open_yard(m: &mut Lent, code: u8, neighbours: &[u8]) -> u8 {
    m.input = Buffer::new(neighbours.to_vec());
    beside("open_yard", m, |m| expected::open_yard(m, code), |m| raw::open_yard(m, code))
}

/// Opens a yard, or a depot that delivers.
pub fn open_as(m: &mut Lent, is_yard: bool, code: u8, neighbours: &[u8]) -> u8 {
    if is_yard {
        open_yard(m, code, neighbours)
    } else {
        open(m, code, neighbours)
    }
}

pub fn link(m: &mut Lent, first: u8, second: u8) -> u8 {
    beside("link", m, |m| expected::link(m, first, second), |m| raw::link(m, first, second))
}

pub fn open_batch(m: &mut Lent, lines: &[u8]) -> u8 {
    m.input = Buffer::new(lines.to_vec());
    beside("open_batch", m, expected::open_batch, raw::open_batch)
}

pub fn read(m: &mut Lent, input: &[u8]) -> u8 {
    m.input = Buffer::new(input.to_vec());
    beside("read_notice", m, expected::read_notice, raw::read_notice)
}

pub fn write(m: &mut Lent, frame: &[u8]) -> u8 {
    m.input = Buffer::new(frame.to_vec());
    beside("write_notice", m, expected::write_notice, raw::write_notice)
}

pub fn report(m: &mut Lent, fields: Fields) -> u8 {
    beside("report", m, |m| expected::report(m, fields), |m| raw::report(m, fields))
}

pub fn feed(m: &mut Lent, piece: &[u8]) -> u8 {
    m.input = Buffer::new(piece.to_vec());
    beside("feed", m, expected::feed, raw::feed)
}

pub fn finish(m: &mut Lent) -> u8 {
    beside("finish", m, expected::finish, raw::finish)
}
