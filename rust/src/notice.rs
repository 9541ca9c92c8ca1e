//! Notice lines: upper-case hexadecimal, ended by byte 0A. A line spells a frame, by its first byte, the kind: 01, an opening, then has code,
//! neighbour count and neighbours; 02, a link, has two codes; 04, the opening of a yard, is laid out as 01.
//!
//! ```
//! use zorpedi::notice::{self, Notice};
//!
//! let (notice, used) = notice::read(b"010503000204\n020105\n")?;
//! assert_eq!(notice, Notice::Opening { code: 5, neighbours: vec![0, 2, 4] });
//! assert_eq!(used, 13);
//! assert_eq!(notice::write(&notice.frame())?, b"010503000204\n");
//!
//! let (notice, _) = notice::read(b"020105\n")?;
//! assert_eq!(notice, Notice::Link { first: 1, second: 5 });
//!
//! let (notice, _) = notice::read(b"04070105\n")?;
//! assert_eq!(notice, Notice::YardOpening { code: 7, neighbours: vec![5] });
//! # Ok::<(), zorpedi::Refusal>(())
//! ```
use crate::ffi;
use crate::refusal::Refusal;
use crate::version;

/// The most bytes of a frame.
pub const FRAME_LIMIT: usize = 258;
/// The most bytes of a line, its ending included.
pub const LINE_LIMIT: usize = 517;

/// The kinds of a frame: its first byte.
const OPENING: u8 = 1;
const LINK: u8 = 2;
const YARD_OPENING: u8 = 4;

/// A notice, by its kind; [`Map::apply`](crate::Map::apply) does what it says. Further kinds may come, so that a `match` needs an arm for them.
///
/// ```
/// use zorpedi::notice::Notice;
///
/// fn is_about(notice: &Notice, depot: u8) -> bool {
///     match notice {
///         Notice::Opening { code, .. } | Notice::YardOpening { code, .. } => *code == depot,
///         Notice::Link { first, second } => [*first, *second].contains(&depot),
///         _ => false,
///     }
/// }
/// assert!(is_about(&Notice::Link { first: 1, second: 5 }, 5));
/// ```
///
/// ```compile_fail
/// use zorpedi::notice::Notice;
///
/// fn is_link(notice: &Notice) -> bool {
///     match notice {
///         Notice::Opening { .. } => false,
///         Notice::Link { .. } => true,
///         Notice::YardOpening { .. } => false,
///     }
/// }
/// ```
#[derive(Clone, Debug, PartialEq, Eq, Hash)]
#[non_exhaustive]
pub enum Notice {
    /// Kind 01: a depot opens, as [`Map::open`](crate::Map::open) opens it.
    Opening {
        /// The code of the new depot.
        code: u8,
        /// Its neighbours, in the line's order; the opening judges it.
        neighbours: Vec<u8>,
    },
    /// Kind 02: two open depots are linked, as [`Map::link`](crate::Map::link) links them.
    Link {
        /// The code that the line names first; it need not be the lower one.
        first: u8,
        /// The other code.
        second: u8,
    },
    /// Kind 04: a yard opens, as [`Map::open_yard`](crate::Map::open_yard) opens it.
    YardOpening {
        /// The code of the new yard.
        code: u8,
        /// Its neighbours, in the line's order; the opening judges it.
        neighbours: Vec<u8>,
    },
}

impl Notice {
    /// The frame: kind, code, neighbour count, neighbours; or kind and two codes. An opening with more than 255 neighbours has none: what this
    /// gives for it, [`write`] refuses.
    ///
    /// ```
    /// use zorpedi::notice::{self, Notice};
    ///
    /// assert_eq!(Notice::Opening { code: 9, neighbours: vec![5] }.frame(), [1, 9, 1, 5]);
    /// assert_eq!(Notice::YardOpening { code: 9, neighbours: vec![5] }.frame(), [4, 9, 1, 5]);
    /// assert_eq!(notice::write(&Notice::Link { first: 1, second: 5 }.frame())?, b"020105\n");
    /// assert!(notice::write(&Notice::Opening { code: 9, neighbours: vec![5; 256] }.frame()).is_err());
    /// # Ok::<(), zorpedi::Refusal>(())
    /// ```
    pub fn frame(&self) -> Vec<u8> {
        // where the count is cut off it no longer fits the length
        let opening = |kind, code, neighbours: &[u8]| [&[kind, code, neighbours.len() as u8], neighbours].concat();
        match self {
            Notice::Opening { code, neighbours } => opening(OPENING, *code, neighbours),
            Notice::Link { first, second } => vec![LINK, *first, *second],
            Notice::YardOpening { code, neighbours } => opening(YARD_OPENING, *code, neighbours),
        }
    }

    /// The notice of a frame that was read; none if its kind is one that this crate does not know.
    fn of(frame: &[u8]) -> Option<Notice> {
        match *frame {
            [OPENING, code, _, ref neighbours @ ..] => Some(Notice::Opening { code, neighbours: neighbours.to_vec() }),
            [LINK, first, second] => Some(Notice::Link { first, second }),
            [YARD_OPENING, code, _, ref neighbours @ ..] => Some(Notice::YardOpening { code, neighbours: neighbours.to_vec() }),
            _ => None,
        }
    }
}

/// Reads the notice line at the start of the input, and answers it with the number of bytes used, 0A included.
///
/// Refused with `Garbled`; so is a line of a kind that only an archive newer than this crate knows.
///
/// # Panics
///
/// If the archive that is linked does not serve this crate: see [`Version`](crate::Version).
///
/// ```
/// use zorpedi::{notice, Refusal};
///
/// assert_eq!(notice::read(b"0105\n"), Err(Refusal::Garbled));
/// assert_eq!(notice::read(b"010000"), Err(Refusal::Garbled)); // no ending
/// assert_eq!(notice::read(b"02010500\n"), Err(Refusal::Garbled)); // a link has no count
/// ```
pub fn read(input: &[u8]) -> Result<(Notice, usize), Refusal> {
    version::require();
    let (mut frame, mut length, mut used) = ([0; FRAME_LIMIT], 0, 0);
    Refusal::check(ffi::read_notice(&mut frame, &mut length, &mut used, input))?;
    let notice = Notice::of(&frame[..length]).ok_or(Refusal::Garbled)?;
    Ok((notice, used))
}

/// Writes the line of a frame, 0A included.
///
/// Refused with `Garbled`: the kind is none of 01, 02 and 04, or the length is not that of its kind: 3 more than the neighbour count, or for a link 3.
///
/// # Panics
///
/// If the archive that is linked does not serve this crate: see [`Version`](crate::Version).
///
/// ```
/// use zorpedi::{notice, Refusal};
///
/// assert_eq!(notice::write(&[1, 0xA0, 1, 0x0F])?, b"01A0010F\n");
/// assert_eq!(notice::write(&[2, 0, 0])?, b"020000\n");
/// assert_eq!(notice::write(&[4, 7, 1, 5])?, b"04070105\n");
/// assert_eq!(notice::write(&[2, 0, 0, 0]), Err(Refusal::Garbled));
/// # Ok::<(), Refusal>(())
/// ```
pub fn write(frame: &[u8]) -> Result<Vec<u8>, Refusal> {
    version::require();
    let mut line = vec![0; LINE_LIMIT];
    let mut length = 0;
    Refusal::check(ffi::write_notice(&mut line, &mut length, frame))?;
    line.truncate(length);
    Ok(line)
}
