//! Zorpedi, the handover map, for Rust: safe types over `libzorpedi.a`, whose functions are proved to do what `include/zorpedi.h` says.
//!
//! A map holds depots and the links between them. It takes notices one by one, of depots that open and of links between open ones, and keeps
//! the longest chain (the network's diameter) and the set of farthest pairs. A transit yard is an open depot that only hands parcels on, none being
//! bound for it: chains run through it, and none begins or ends there.
//!
//! ```
//! use zorpedi::{Change, Map};
//!
//! let mut map = Map::new();
//! map.open(0, &[])?;
//! for code in 1..5 {
//!     map.open(code, &[code - 1])?;
//! }
//! assert_eq!(map.chain(), 4);
//!
//! let opened = map.open(5, &[0, 2, 4])?;
//! assert_eq!(opened.change, Change::Shrank);
//! assert_eq!(map.chain(), 3);
//! assert_eq!(map.farthest_pairs().collect::<Vec<_>>(), [(0, 3), (1, 4)]);
//!
//! let linked = map.link(1, 4)?;
//! assert_eq!(linked.change, Change::Kept);
//! assert_eq!(map.farthest_pairs().collect::<Vec<_>>(), [(0, 3)]);
//!
//! map.open_yard(6, &[3])?;
//! assert_eq!(map.chain(), 3);
//! map.open(7, &[6])?;
//! assert_eq!(map.farthest_pairs().collect::<Vec<_>>(), [(0, 7)]);
//! # Ok::<(), zorpedi::Refusal>(())
//! ```
//!
//! [`Map`] has the calls on a map, [`notice`] and [`report`] the lines, [`sentence`] outcomes in plain words, [`Stream`] a whole input. A call that
//! is refused says why by a [`Refusal`], and has changed nothing. [`Version`] says which archives serve this crate, and where it looks.
#![warn(missing_docs)]
#![deny(unsafe_op_in_unsafe_fn)]

#[allow(clippy::too_many_arguments)]
mod c;
mod ffi;
mod map;
pub mod notice;
mod refusal;
pub mod report;
mod row;
pub mod sentence;
mod stream;
mod version;

pub use map::{Change, Map, Mark, Nearest, Opened, Record, Search, Summary};
pub use refusal::Refusal;
pub use row::Codes;
pub use stream::{Fed, Stream};
pub use version::Version;
