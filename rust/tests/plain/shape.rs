//! In what one map differs from another: how many depots it takes, which row each has, its two
//! marks, and the frames that its lines carry. Everything else here is written once, over this
//! value.

/// What a frame asks for.
#[derive(Clone, Copy, Debug, PartialEq, Eq)]
pub enum Call {
    Opening,
    YardOpening,
    Link,
    Closing,
}

/// The frames that begin with this byte. Each of their codes, and their count, has so many bytes,
/// the high one first.
#[derive(Clone, Copy, Debug, PartialEq)]
pub struct Kind {
    pub byte: u8,
    pub call: Call,
    pub width: usize,
}

const fn kind(byte: u8, call: Call, width: usize) -> Kind {
    Kind { byte, call, width }
}

/// Frames of one-byte codes, then those of two-byte codes, then the closings of both.
const KINDS: &[Kind] = &[
    kind(0x01, Call::Opening, 1),
    kind(0x02, Call::Link, 1),
    kind(0x04, Call::YardOpening, 1),
    kind(0x11, Call::Opening, 2),
    kind(0x12, Call::Link, 2),
    kind(0x14, Call::YardOpening, 2),
    kind(0x03, Call::Closing, 1),
    kind(0x13, Call::Closing, 2),
];

#[derive(Debug, PartialEq)]
pub struct Shape {
    /// The most depots that are open at once: so many rows has a table, and so many bits a row.
    pub places: usize,
    /// Whether a depot takes the next free row, whatever its code; else row c is that of code c.
    pub by_arrival: bool,
    /// The marks of a searched depot, and of any that is neither searched nor skipped.
    pub searched: u16,
    pub other: u16,
    pub kinds: &'static [Kind],
    /// The most bytes of a frame, and of its line with the ending.
    pub frame: usize,
    pub line: usize,
}

/// Codes 0 to 255, each its own row.
pub const NARROW: Shape =
    Shape { places: 256, by_arrival: false, searched: 256, other: 257, kinds: KINDS.split_at(3).0, frame: 258, line: 517 };

/// Codes 0 to 65,535, of which 512 have a row.
pub const WIDE: Shape =
    Shape { places: 512, by_arrival: true, searched: 65_534, other: 65_533, kinds: KINDS.split_at(6).0, frame: 1_027, line: 2_055 };

/// The same, and depots close.
pub const CLOSING: Shape = Shape { kinds: KINDS, ..WIDE };

/// The map whose calls the archive has: what every test beside it is held to.
pub const TODAY: &Shape = &NARROW;

impl Shape {
    /// The words of a row: layer rows, open set and yard set have as many.
    pub const fn words(&self) -> usize {
        self.places / 64
    }

    /// The words of a link or pair table.
    pub const fn table(&self) -> usize {
        self.places * self.words()
    }

    /// The words of the record: open set, number open, chain, pair count, yard set.
    pub const fn record(&self) -> usize {
        2 * self.words() + 3
    }

    /// The number of row codes that are lent: none where a code is its row.
    pub const fn row_codes(&self) -> usize {
        if self.by_arrival {
            self.places
        } else {
            0
        }
    }

    /// The greatest chain that is sound, that of a path of all depots.
    pub const fn greatest_chain(&self) -> usize {
        self.places - 1
    }

    /// The kind of the frames that begin with this byte.
    pub fn kind(&self, byte: u8) -> Option<Kind> {
        self.kinds.iter().copied().find(|kind| kind.byte == byte)
    }
}
