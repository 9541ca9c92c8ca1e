//! Report lines: line number; the letter of the change, or R with the refusal's number; depots, chain and pairs; searches.
//!
//! ```
//! use zorpedi::{report, Map};
//!
//! let mut map = Map::new();
//! let answer = map.open(0, &[]);
//! assert_eq!(report::line(1, answer, &map), "1 K 1 0 0 1\n");
//! let answer = map.open(0, &[]);
//! assert_eq!(report::line(2, answer, &map), "2 R5 1 0 0 0\n");
//! ```
use crate::ffi::{self, Fields};
use crate::map::{Map, Opened};
use crate::refusal::Refusal;

/// The size of the buffer for a report line.
pub const REPORT_LIMIT: usize = 48;

/// The report line of a call's answer on this map, 0A included.
///
/// ```
/// use zorpedi::{report, Map, Refusal};
///
/// assert_eq!(report::line(12, Err(Refusal::Garbled), &Map::new()), "12 R9 0 0 0 0\n");
/// ```
pub fn line(number: u32, answer: Result<Opened, Refusal>, map: &Map) -> String {
    let (letter, searches) = match answer {
        Ok(opened) => (opened.change.letter() as u8, opened.searches),
        Err(refusal) => (refusal.number(), 0),
    };
    let fields = Fields { number, answer: letter, depots: map.depots(), chain: map.chain(), pairs: map.pair_count(), searches };
    let mut text = [0; REPORT_LIMIT];
    let mut length = 0;
    // It can be refused only for its size, and that is right.
    let refusal = ffi::report(&mut text, &mut length, &fields);
    debug_assert_eq!(refusal, 0);
    text[..length].iter().map(|&b| char::from(b)).collect()
}
