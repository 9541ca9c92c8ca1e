//! The rules (docs/RULES.md) once more, in the plainest way: sets of codes, a queue search from every
//! depot, no word of the proved code. It is what every test compares with, so it is written from the
//! rules alone, and knows nothing of how memory is lent. It is ahead of the calls: a map of two-byte
//! codes, whose rows go by arrival, and closings are here before any call has them (`shape`).
// Each test uses a part of it.
#![allow(dead_code, unused_imports)]
pub mod batch;
pub mod closing;
pub mod lines;
pub mod linking;
pub mod memory;
pub mod narrate;
pub mod nearby;
pub mod network;
pub mod opening;
pub mod rows;
pub mod sentences;
pub mod shape;
pub mod stream;
pub mod summary;
pub mod survey;
pub mod words;

pub use network::{Figures, Network};
pub use opening::Map;
pub use shape::{CLOSING, NARROW, TODAY, WIDE};
