use crate::ffi;
use crate::notice::Notice;
use crate::refusal::Refusal;
use crate::row::{codes, has, Codes};
use crate::version;
use std::fmt;

/// How an accepted opening or link changed the longest chain. Further ways may come, so that a `match` needs an arm for them.
///
/// ```
/// use zorpedi::Change;
///
/// fn is_worth_a_call(change: Change) -> bool {
///     match change {
///         Change::Kept => false,
///         _ => true,
///     }
/// }
/// assert!(is_worth_a_call(Change::Shrank));
/// ```
///
/// ```compile_fail
/// use zorpedi::Change;
///
/// fn letter(change: Change) -> char {
///     match change {
///         Change::Grew => 'G',
///         Change::Kept => 'K',
///         Change::Shrank => 'S',
///     }
/// }
/// ```
#[derive(Clone, Copy, Debug, PartialEq, Eq, Hash)]
#[non_exhaustive]
pub enum Change {
    /// The longest chain is greater than before; by a yard or a link it never is.
    Grew,
    /// It is the same.
    Kept,
    /// Neither; it is smaller, unless the map was made by [`Map::from_parts`] with figures that were not true.
    Shrank,
}

impl Change {
    /// The letter of a report line: G, K or S.
    ///
    /// ```
    /// assert_eq!(zorpedi::Change::Shrank.letter(), 'S');
    /// ```
    pub const fn letter(self) -> char {
        match self {
            Change::Grew => 'G',
            Change::Kept => 'K',
            Change::Shrank => 'S',
        }
    }
}

/// An accepted opening or link.
///
/// ```
/// use zorpedi::{Map, Opened};
///
/// let Opened { change, searches, .. } = Map::new().open(7, &[])?;
/// assert_eq!((change.letter(), searches), ('K', 1));
/// # Ok::<(), zorpedi::Refusal>(())
/// ```
#[derive(Clone, Copy, Debug, PartialEq, Eq, Hash)]
#[non_exhaustive]
pub struct Opened {
    /// How the longest chain changed.
    pub change: Change,
    /// How many depots were searched: by an opening 1 if the chain grew or was kept, by a link 2 if it was kept; and never more than are open.
    pub searches: u16,
}

impl Opened {
    /// What the answer of an opening or a link says.
    fn of(answer: u8, searches: u16) -> Result<Opened, Refusal> {
        let change = match answer {
            b'G' => Change::Grew,
            b'K' => Change::Kept,
            b'S' => Change::Shrank,
            number => return Err(Refusal::of(number)),
        };
        Ok(Opened { change, searches })
    }
}

/// The nearest depot of a list: see [`Map::nearest`].
#[derive(Clone, Copy, Debug, PartialEq, Eq, Hash)]
#[non_exhaustive]
pub struct Nearest {
    /// The depot's code.
    pub code: u8,
    /// How many handovers away it is.
    pub distance: u16,
}

/// How far apart the depots of a map are that deliver, two by two, and how many have each eccentricity: see [`Map::summary`].
///
/// The mean distance is exact: `quotient` and `remainder / pairs`, or as one fraction [`Summary::mean`].
#[derive(Clone, Copy, Debug, PartialEq, Eq, Hash)]
#[non_exhaustive]
pub struct Summary {
    /// The sum of the distances of all pairs of depots that deliver, each pair once.
    pub sum: u64,
    /// The number of pairs, of `n` such depots `n (n - 1) / 2`.
    pub pairs: u64,
    /// The mean distance without its fraction: the sum divided by the pairs.
    pub quotient: u64,
    /// What is left of the sum, below the number of pairs.
    pub remainder: u64,
    /// How many of them have each eccentricity, from 0 to 255.
    pub counts: [u16; 256],
}

impl Summary {
    /// The mean distance as a fraction in lowest terms, numerator and denominator. No map that is summed up has 0 pairs.
    ///
    /// ```
    /// // The path 10-20-30 has the distances 1, 1 and 2.
    /// let mut map = zorpedi::Map::new();
    /// map.open(10, &[])?;
    /// map.open(20, &[10])?;
    /// map.open(30, &[20])?;
    /// assert_eq!(map.summary()?.mean(), (4, 3));
    /// # Ok::<(), zorpedi::Refusal>(())
    /// ```
    pub fn mean(&self) -> (u64, u64) {
        let (mut divisor, mut rest) = (self.pairs, self.remainder);
        while rest != 0 {
            (divisor, rest) = (rest, divisor % rest);
        }
        (self.sum / divisor, self.pairs / divisor)
    }
}

/// The record of a map: what it knows beside its two tables. One is made by [`Map::record`] or as that of the empty map, and its fields are
/// then set.
///
/// ```
/// use zorpedi::{Map, Record};
///
/// let mut record = Record::default();
/// record.open[1] = 1;
/// record.number = 1;
/// let map = Map::from_parts(record, &[0; 1024], &[0; 1024]);
/// assert!(map.is_open(64));
/// ```
#[derive(Clone, Copy, Debug, Default, PartialEq, Eq, Hash)]
#[non_exhaustive]
pub struct Record {
    /// The open set, yards with it: bit b of word w stands for code 64 w + b.
    pub open: [u64; 4],
    /// The number of depots open.
    pub number: u16,
    /// The longest chain.
    pub chain: u16,
    /// The number of farthest pairs.
    pub pairs: u32,
    /// The yard set, laid out as the open set.
    pub yards: [u64; 4],
}

/// What the last opening, link or reckoning did with a depot. Further marks may come, so that a `match` needs an arm for them.
///
/// ```
/// use zorpedi::{Map, Mark};
///
/// let mut map = Map::new();
/// map.open(1, &[])?;
/// match map.mark(1) {
///     Mark::Searched { eccentricity } => assert_eq!(eccentricity, 0),
///     other => panic!("{other:?}"),
/// }
/// # Ok::<(), zorpedi::Refusal>(())
/// ```
#[derive(Clone, Copy, Debug, PartialEq, Eq, Hash)]
#[non_exhaustive]
pub enum Mark {
    /// The depot was searched.
    Searched {
        /// Its eccentricity: the greatest distance to a depot that delivers.
        eccentricity: u16,
    },
    /// The depot was skipped: its eccentricity is at most the bound, and that is below the longest chain.
    Skipped {
        /// The earliest reference that gave the bound.
        reference: u8,
        /// The reference's eccentricity and its distance to the depot, added.
        bound: u16,
    },
    /// Neither.
    Unmarked,
}

/// All memory of one map, as the archive wants it lent.
#[derive(Clone)]
pub(crate) struct Memory {
    pub record: [u64; 11],
    pub links: [u64; 1024],
    pub pairs: [u64; 1024],
    pub hops: [u16; 256],
    pub bounds: [u16; 256],
    pub skips: [u16; 256],
    pub even: [u64; 4],
    pub odd: [u64; 4],
}

/// The hop of a closed code, and the bound of an unmarked depot.
pub(crate) const FAR: u16 = 65_535;
/// The mark of a searched depot in the skip table.
const SEARCHED: u16 = 256;
/// The mark of any other depot that was not skipped.
const UNMARKED: u16 = 257;

/// A map of depots and links, with its longest chain and its farthest pairs. It owns its memory. Two maps are equal if their record, link
/// table and pair table are; the marks of the last call and the distances of the last search play no part.
///
/// ```
/// use zorpedi::{Change, Map, Refusal};
///
/// let mut map = Map::new();
/// map.open(0, &[])?;
/// map.open(1, &[0])?;
/// let opened = map.open(2, &[1])?;
/// assert_eq!(opened.change, Change::Grew);
/// assert_eq!((map.depots(), map.chain()), (3, 2));
/// assert_eq!(map.farthest_pairs().collect::<Vec<_>>(), [(0, 2)]);
///
/// assert_eq!(map.open(3, &[2, 1]), Err(Refusal::Unsorted));
/// assert_eq!(map.depots(), 3);
/// # Ok::<(), Refusal>(())
/// ```
#[derive(Clone)]
pub struct Map {
    pub(crate) memory: Box<Memory>,
}

impl Map {
    /// An empty map.
    ///
    /// # Panics
    ///
    /// If the archive that is linked does not serve this crate: see [`Version`](crate::Version).
    ///
    /// ```
    /// let map = zorpedi::Map::new();
    /// assert_eq!((map.depots(), map.chain(), map.pair_count()), (0, 0, 0));
    /// ```
    pub fn new() -> Map {
        Map::from_parts(Record::default(), &[0; 1024], &[0; 1024])
    }

    /// A map from a record and two tables, as `record`, `links` and `pairs` give them. Nothing is checked here: each call checks what it
    /// is lent, and refuses with `Spoilt` or `Apart` what is no map.
    ///
    /// # Panics
    ///
    /// If the archive that is linked does not serve this crate: see [`Version`](crate::Version).
    ///
    /// ```
    /// use zorpedi::{Map, Refusal};
    ///
    /// let mut map = Map::new();
    /// map.open(9, &[])?;
    /// let mut again = Map::from_parts(map.record(), map.links(), map.pairs());
    /// assert_eq!(again.open(10, &[9])?.searches, 1);
    ///
    /// let mut wrong = map.record();
    /// wrong.number = 2;
    /// let mut spoilt = Map::from_parts(wrong, map.links(), map.pairs());
    /// assert_eq!(spoilt.open(10, &[9]), Err(Refusal::Spoilt));
    /// # Ok::<(), Refusal>(())
    /// ```
    pub fn from_parts(record: Record, links: &[u64; 1024], pairs: &[u64; 1024]) -> Map {
        version::require();
        let ([a, b, c, d], [e, f, g, h]) = (record.open, record.yards);
        let memory = Memory {
            record: [a, b, c, d, record.number.into(), record.chain.into(), record.pairs.into(), e, f, g, h],
            links: *links,
            pairs: *pairs,
            hops: [FAR; 256],
            bounds: [FAR; 256],
            skips: [UNMARKED; 256],
            even: [0; 4],
            odd: [0; 4],
        };
        Map { memory: Box::new(memory) }
    }

    /// Empties the map.
    ///
    /// ```
    /// let mut map = zorpedi::Map::new();
    /// map.open(9, &[])?;
    /// map.empty();
    /// assert_eq!(map.depots(), 0);
    /// # Ok::<(), zorpedi::Refusal>(())
    /// ```
    pub fn empty(&mut self) {
        // It can be refused only for its sizes, and they are right.
        let number = ffi::empty(&mut self.memory);
        debug_assert_eq!(number, 0);
    }

    /// Opens a depot that delivers beside its neighbours, which have to rise strictly. Chain and pairs are brought up to date.
    ///
    /// Refused with `Spoilt`, `Apart`, `Taken`, `Lonely`, `Unsorted` or `Unknown`; the first two only on a map made by `from_parts`.
    ///
    /// ```
    /// use zorpedi::{Change, Map, Refusal};
    ///
    /// let mut map = Map::new();
    /// for code in 0..5u8 {
    ///     map.open(code, if code == 0 { vec![] } else { vec![code - 1] }.as_slice())?;
    /// }
    /// assert_eq!(map.chain(), 4);
    /// let opened = map.open(5, &[0, 2, 4])?;
    /// assert_eq!((opened.change, opened.searches), (Change::Shrank, 6));
    /// assert_eq!(map.farthest_pairs().collect::<Vec<_>>(), [(0, 3), (1, 4)]);
    /// assert_eq!(map.open(5, &[0, 2, 4]), Err(Refusal::Taken));
    /// # Ok::<(), Refusal>(())
    /// ```
    pub fn open(&mut self, code: u8, neighbours: &[u8]) -> Result<Opened, Refusal> {
        let mut searches = 0;
        let answer = ffi::open(&mut self.memory, &mut searches, code, neighbours);
        Opened::of(answer, searches)
    }

    /// Opens a transit yard beside its neighbours, which have to rise strictly. It is an open depot that only hands parcels on, none being bound for it, so that
    /// it is the end of no farthest pair and never makes the chain grow; the chain may run through it, and may get shorter by it.
    ///
    /// Refused as [`Map::open`] is.
    ///
    /// ```
    /// use zorpedi::{Change, Map};
    ///
    /// // A depot, two yards behind each other, and a depot behind them.
    /// let mut map = Map::new();
    /// map.open(0, &[])?;
    /// map.open_yard(1, &[0])?;
    /// let opened = map.open_yard(2, &[1])?;
    /// assert_eq!((opened.change, map.chain()), (Change::Kept, 0));
    /// map.open(3, &[2])?;
    /// assert_eq!(map.chain(), 3);
    /// assert_eq!(map.farthest_pairs().collect::<Vec<_>>(), [(0, 3)]);
    ///
    /// // A third yard is a shorter way.
    /// let opened = map.open_yard(4, &[0, 3])?;
    /// assert_eq!((opened.change, map.chain()), (Change::Shrank, 2));
    /// assert_eq!(map.yard_codes().collect::<Vec<_>>(), [1, 2, 4]);
    /// # Ok::<(), zorpedi::Refusal>(())
    /// ```
    pub fn open_yard(&mut self, code: u8, neighbours: &[u8]) -> Result<Opened, Refusal> {
        let mut searches = 0;
        let answer = ffi::open_yard(&mut self.memory, &mut searches, code, neighbours);
        Opened::of(answer, searches)
    }

    /// Links two open depots, yards or not, whichever is named first. Chain and pairs are brought up to date; the chain stays or gets shorter.
    ///
    /// Refused with `Spoilt`, `Apart`, `Absent` (one of them is not open), `Itself` or `Linked`; the first two only on a map made by `from_parts`.
    ///
    /// ```
    /// use zorpedi::{Change, Map, Mark, Refusal};
    ///
    /// // The path 0-1-2-3-4-5-6, whose ends then begin to exchange parcels.
    /// let mut map = Map::new();
    /// map.open(0, &[])?;
    /// for code in 1..7 {
    ///     map.open(code, &[code - 1])?;
    /// }
    /// let linked = map.link(6, 0)?;
    /// assert_eq!((linked.change, linked.searches), (Change::Shrank, 7));
    /// assert_eq!((map.chain(), map.pair_count()), (3, 7));
    /// assert!(map.are_linked(0, 6));
    ///
    /// let linked = map.link(1, 3)?;
    /// assert_eq!((linked.change, linked.searches), (Change::Kept, 2));
    /// assert_eq!(map.mark(1), Mark::Searched { eccentricity: 3 });
    ///
    /// assert_eq!(map.link(0, 6), Err(Refusal::Linked));
    /// assert_eq!(map.link(2, 2), Err(Refusal::Itself));
    /// assert_eq!(map.link(2, 9), Err(Refusal::Absent));
    /// # Ok::<(), Refusal>(())
    /// ```
    pub fn link(&mut self, first: u8, second: u8) -> Result<Opened, Refusal> {
        let mut searches = 0;
        let answer = ffi::link(&mut self.memory, &mut searches, first, second);
        Opened::of(answer, searches)
    }

    /// Does what a notice says: opens its depot, as [`Map::open`] does, or its yard, as [`Map::open_yard`] does, or links its two depots, as [`Map::link`]
    /// does.
    ///
    /// ```
    /// use zorpedi::{notice, Change, Map};
    ///
    /// let mut map = Map::new();
    /// let mut rest = &b"010000\n01010100\n01020101\n020002\n"[..];
    /// let mut changes = Vec::new();
    /// while !rest.is_empty() {
    ///     let (notice, used) = notice::read(rest)?;
    ///     changes.push(map.apply(&notice)?.change);
    ///     rest = &rest[used..];
    /// }
    /// assert_eq!(changes, [Change::Kept, Change::Grew, Change::Grew, Change::Shrank]);
    /// # Ok::<(), zorpedi::Refusal>(())
    /// ```
    pub fn apply(&mut self, notice: &Notice) -> Result<Opened, Refusal> {
        match notice {
            Notice::Opening { code, neighbours } => self.open(*code, neighbours),
            Notice::Link { first, second } => self.link(*first, *second),
            Notice::YardOpening { code, neighbours } => self.open_yard(*code, neighbours),
        }
    }

    /// Opens the depots and yards of up to 64 notice lines, which may come in any order: again and again the first line that can be opened by then is
    /// opened, as [`Map::open`] or [`Map::open_yard`] opens it, until none can. Answers the numbers of the lines left over, from 0, rising. No order of
    /// these lines opens a depot that is not open then. Each line ends with its 0A.
    ///
    /// Refused with `Spoilt`, `Apart`, `Overfull` (more than 64 lines), `Bare` (no depot is open yet) or, if any line is no notice of an opening,
    /// `Garbled`; the first two only on a map made by `from_parts`. A link is garbled here.
    ///
    /// ```
    /// use zorpedi::{Map, Refusal};
    ///
    /// let mut map = Map::new();
    /// assert_eq!(map.open_batch(b"01010100\n"), Err(Refusal::Bare));
    /// map.open(0, &[])?;
    ///
    /// // 3 opens beside 2, 2 beside 1, 1 beside 0, and 9 beside 8, which no line opens.
    /// let left = map.open_batch(b"01030102\n01090108\n01020101\n01010100\n")?;
    /// assert_eq!(left, [1]);
    /// assert_eq!((map.depots(), map.chain()), (4, 3));
    ///
    /// // A line that does not read refuses the whole batch, and so does a link.
    /// assert_eq!(map.open_batch(b"01040103\n0105010\n"), Err(Refusal::Garbled));
    /// assert_eq!(map.open_batch(b"01040103\n020002\n"), Err(Refusal::Garbled));
    /// assert_eq!(map.depots(), 4);
    /// # Ok::<(), Refusal>(())
    /// ```
    pub fn open_batch(&mut self, lines: &[u8]) -> Result<Vec<u8>, Refusal> {
        let (mut left, mut count) = ([0; 64], 0);
        Refusal::check(ffi::open_batch(&mut self.memory, &mut left, &mut count, lines))?;
        Ok(left[..usize::from(count)].to_vec())
    }

    /// Searches from an open depot, which may be a yard: its distance to every depot. The map is only read, and what is found has its own memory, so that several
    /// searches and the map can be looked at together, also a stream's map, and by several threads.
    ///
    /// Refused with `Spoilt` (the links), `Apart` or `Absent`; the first two only on a map made by `from_parts`.
    ///
    /// ```
    /// let mut map = zorpedi::Map::new();
    /// map.open(10, &[])?;
    /// map.open(20, &[10])?;
    /// map.open(30, &[20])?;
    /// let (end, middle) = (map.search(10)?, map.search(20)?);
    /// assert_eq!((end.eccentricity(), middle.eccentricity()), (map.chain(), 1));
    /// assert_eq!(end.distance(20), Some(1));
    /// assert_eq!(end.distance(40), None);
    /// assert_eq!(end.last_layer().collect::<Vec<_>>(), [30]);
    ///
    /// // Behind 30 a yard: nobody delivers to it, and it is the last layer all the same.
    /// map.open_yard(40, &[30])?;
    /// let end = map.search(10)?;
    /// assert_eq!((end.eccentricity(), end.depth()), (2, 3));
    /// assert_eq!(end.last_layer().collect::<Vec<_>>(), [40]);
    /// # Ok::<(), zorpedi::Refusal>(())
    /// ```
    pub fn search(&self, code: u8) -> Result<Search, Refusal> {
        let mut found = Search { eccentricity: 0, depth: 0, hops: [FAR; 256], even: [0; 4], odd: [0; 4] };
        Refusal::check(ffi::search(&self.memory, &mut found, code))?;
        Ok(found)
    }

    /// The depots at most `handovers` handovers from an open depot, itself and yards among them, rising. The map is only read.
    ///
    /// Refused with `Spoilt` (the links), `Apart` or `Absent`; the first two only on a map made by `from_parts`.
    ///
    /// ```
    /// // The path 0-1-2-3-4-5-6.
    /// let mut map = zorpedi::Map::new();
    /// map.open(0, &[])?;
    /// for code in 1..7 {
    ///     map.open(code, &[code - 1])?;
    /// }
    /// assert_eq!(map.within(3, 2)?, [1, 2, 3, 4, 5]);
    /// assert_eq!(map.within(3, 0)?, [3]);
    /// assert_eq!(map.within(0, u32::MAX)?, [0, 1, 2, 3, 4, 5, 6]);
    /// assert_eq!(map.within(9, 2), Err(zorpedi::Refusal::Absent));
    /// # Ok::<(), zorpedi::Refusal>(())
    /// ```
    pub fn within(&self, code: u8, handovers: u32) -> Result<Vec<u8>, Refusal> {
        let (mut codes, mut count) = ([0; 256], 0);
        Refusal::check(ffi::within(&self.memory, &mut codes, &mut count, code, handovers))?;
        Ok(codes[..usize::from(count)].to_vec())
    }

    /// Of a list of codes the open depot that is nearest to an open depot, the lowest code of several, with its distance. The list may have codes
    /// more than once, closed ones, yards and the depot itself. The map is only read.
    ///
    /// Refused with `Spoilt` (the links), `Apart`, `Absent` or, if no depot of the list is open, `Nobody`; the first two only on a map made by
    /// `from_parts`.
    ///
    /// ```
    /// use zorpedi::{Map, Nearest, Refusal};
    ///
    /// // The path 0-1-2-3-4-5-6.
    /// let mut map = Map::new();
    /// map.open(0, &[])?;
    /// for code in 1..7 {
    ///     map.open(code, &[code - 1])?;
    /// }
    /// let Nearest { code, distance, .. } = map.nearest(3, &[9, 5, 1, 6])?;
    /// assert_eq!((code, distance), (1, 2)); // 5 is as near
    /// assert_eq!(map.nearest(3, &[9, 200]), Err(Refusal::Nobody));
    /// # Ok::<(), Refusal>(())
    /// ```
    pub fn nearest(&self, code: u8, listed: &[u8]) -> Result<Nearest, Refusal> {
        let mut nearest = Nearest { code: 0, distance: 0 };
        Refusal::check(ffi::nearest(&self.memory, &mut nearest.code, &mut nearest.distance, code, listed))?;
        Ok(nearest)
    }

    /// Sums the network up: the distances of all pairs of depots that deliver added, how many pairs there are, their mean, and how many of these depots have
    /// each eccentricity. The map is only read.
    ///
    /// Refused with `Spoilt` (the links), `Apart` or, if fewer than two open depots deliver, `TooFew`; the first two only on a map made by
    /// `from_parts`.
    ///
    /// ```
    /// use zorpedi::{Map, Refusal};
    ///
    /// let mut map = Map::new();
    /// map.open(0, &[])?;
    /// assert_eq!(map.summary(), Err(Refusal::TooFew));
    ///
    /// // The path 0-1-2-3-4-5-6: 6 pairs are 1 apart, 5 are 2 apart, 4 are 3, 3 are 4, 2 are 5 and 1 is 6.
    /// for code in 1..7 {
    ///     map.open(code, &[code - 1])?;
    /// }
    /// let summary = map.summary()?;
    /// assert_eq!((summary.sum, summary.pairs), (56, 21));
    /// assert_eq!((summary.quotient, summary.remainder), (2, 14));
    /// assert_eq!(summary.mean(), (8, 3));
    /// assert_eq!(summary.counts[..8], [0, 0, 0, 1, 2, 2, 2, 0]);
    /// # Ok::<(), Refusal>(())
    /// ```
    pub fn summary(&self) -> Result<Summary, Refusal> {
        let mut summed = Summary { sum: 0, pairs: 0, quotient: 0, remainder: 0, counts: [0; 256] };
        Refusal::check(ffi::summary(&self.memory, &mut summed))?;
        Ok(summed)
    }

    /// Reckons chain and pairs afresh from links and yards, whatever they were, and answers how many depots were searched.
    ///
    /// Refused with `Spoilt` (the links) or `Apart`, only on a map made by `from_parts`.
    ///
    /// ```
    /// use zorpedi::{Map, Mark};
    ///
    /// // The path 0-1-2-3-4-5-6.
    /// let mut map = Map::new();
    /// map.open(0, &[])?;
    /// for code in 1..7 {
    ///     map.open(code, &[code - 1])?;
    /// }
    /// assert_eq!(map.reckon()?, 6);
    /// assert_eq!(map.mark(4), Mark::Skipped { reference: 3, bound: 4 });
    /// assert_eq!(map.mark(3), Mark::Searched { eccentricity: 3 });
    /// assert_eq!(map.farthest_pairs().collect::<Vec<_>>(), [(0, 6)]);
    /// # Ok::<(), zorpedi::Refusal>(())
    /// ```
    pub fn reckon(&mut self) -> Result<u16, Refusal> {
        let mut searches = 0;
        Refusal::check(ffi::reckon(&mut self.memory, &mut searches))?;
        Ok(searches)
    }

    /// The record.
    ///
    /// ```
    /// let mut map = zorpedi::Map::new();
    /// map.open(64, &[])?;
    /// assert_eq!(map.record().open, [0, 1, 0, 0]);
    /// # Ok::<(), zorpedi::Refusal>(())
    /// ```
    pub fn record(&self) -> Record {
        let [a, b, c, d, number, chain, pairs, e, f, g, h] = self.memory.record;
        // Each word came from these widths, in `from_parts` or from the archive.
        Record { open: [a, b, c, d], number: number as u16, chain: chain as u16, pairs: pairs as u32, yards: [e, f, g, h] }
    }

    /// The link table: four words for each code, the set of codes that it is linked to, laid out as [`Record::open`].
    ///
    /// ```
    /// let mut map = zorpedi::Map::new();
    /// map.open(0, &[])?;
    /// map.open(65, &[0])?;
    /// assert_eq!(map.links()[1], 2);
    /// # Ok::<(), zorpedi::Refusal>(())
    /// ```
    pub fn links(&self) -> &[u64; 1024] {
        &self.memory.links
    }

    /// The pair table, laid out alike: the pair of u and v, u being the lower, is code v in the words of u.
    ///
    /// ```
    /// assert_eq!(zorpedi::Map::new().pairs(), &[0; 1024]);
    /// ```
    pub fn pairs(&self) -> &[u64; 1024] {
        &self.memory.pairs
    }

    /// The number of depots open, yards with them.
    ///
    /// ```
    /// assert_eq!(zorpedi::Map::new().depots(), 0);
    /// ```
    pub fn depots(&self) -> u16 {
        self.record().number
    }

    /// The longest chain, the network's diameter: no two depots that deliver are more handovers apart.
    ///
    /// ```
    /// assert_eq!(zorpedi::Map::new().chain(), 0);
    /// ```
    pub fn chain(&self) -> u16 {
        self.record().chain
    }

    /// The number of farthest pairs.
    ///
    /// ```
    /// assert_eq!(zorpedi::Map::new().pair_count(), 0);
    /// ```
    pub fn pair_count(&self) -> u32 {
        self.record().pairs
    }

    /// Whether a code's depot is open.
    ///
    /// ```
    /// assert!(!zorpedi::Map::new().is_open(0));
    /// ```
    pub fn is_open(&self, code: u8) -> bool {
        has(&self.memory.record[..4], code)
    }

    /// Whether a code's depot is a transit yard.
    ///
    /// ```
    /// let mut map = zorpedi::Map::new();
    /// map.open_yard(200, &[])?;
    /// map.open(100, &[200])?;
    /// assert!(map.is_open(200) && map.is_yard(200));
    /// assert!(map.is_open(100) && !map.is_yard(100));
    /// # Ok::<(), zorpedi::Refusal>(())
    /// ```
    pub fn is_yard(&self, code: u8) -> bool {
        has(&self.memory.record[7..], code)
    }

    /// The codes of the yards, rising.
    ///
    /// ```
    /// let mut map = zorpedi::Map::new();
    /// map.open_yard(200, &[])?;
    /// map.open(150, &[200])?;
    /// map.open_yard(100, &[200])?;
    /// assert_eq!(map.yard_codes().collect::<Vec<_>>(), [100, 200]);
    /// # Ok::<(), zorpedi::Refusal>(())
    /// ```
    pub fn yard_codes(&self) -> Codes<'_> {
        codes(&self.memory.record[7..])
    }

    /// The codes of the open depots, yards with them, rising.
    ///
    /// ```
    /// let mut map = zorpedi::Map::new();
    /// map.open(200, &[])?;
    /// map.open(100, &[200])?;
    /// assert_eq!(map.open_codes().collect::<Vec<_>>(), [100, 200]);
    /// # Ok::<(), zorpedi::Refusal>(())
    /// ```
    pub fn open_codes(&self) -> Codes<'_> {
        codes(&self.memory.record[..4])
    }

    /// Whether two depots are linked.
    ///
    /// ```
    /// let mut map = zorpedi::Map::new();
    /// map.open(200, &[])?;
    /// map.open(100, &[200])?;
    /// assert!(map.are_linked(100, 200) && map.are_linked(200, 100));
    /// # Ok::<(), zorpedi::Refusal>(())
    /// ```
    pub fn are_linked(&self, u: u8, v: u8) -> bool {
        has(row_of(&self.memory.links, u), v)
    }

    /// The neighbours of a depot, rising.
    ///
    /// ```
    /// let mut map = zorpedi::Map::new();
    /// map.open(1, &[])?;
    /// map.open(2, &[1])?;
    /// map.open(3, &[1, 2])?;
    /// assert_eq!(map.neighbours(1).collect::<Vec<_>>(), [2, 3]);
    /// # Ok::<(), zorpedi::Refusal>(())
    /// ```
    pub fn neighbours(&self, code: u8) -> Codes<'_> {
        codes(row_of(&self.memory.links, code))
    }

    /// The farthest pairs (u, v) with u < v, rising.
    ///
    /// ```
    /// let mut map = zorpedi::Map::new();
    /// map.open(1, &[])?;
    /// map.open(2, &[1])?;
    /// map.open(3, &[1, 2])?;
    /// assert_eq!(map.farthest_pairs().collect::<Vec<_>>(), [(1, 2), (1, 3), (2, 3)]);
    /// # Ok::<(), zorpedi::Refusal>(())
    /// ```
    pub fn farthest_pairs(&self) -> impl Iterator<Item = (u8, u8)> + '_ {
        (0..=255u8).flat_map(move |u| codes(row_of(&self.memory.pairs, u)).map(move |v| (u, v)))
    }

    /// What the last accepted opening or link, or the last reckoning, did with a depot: why it was not searched, or that it was.
    ///
    /// ```
    /// use zorpedi::{Map, Mark};
    ///
    /// let mut map = Map::new();
    /// assert_eq!(map.mark(1), Mark::Unmarked);
    /// map.open(1, &[])?;
    /// assert_eq!(map.mark(1), Mark::Searched { eccentricity: 0 });
    /// # Ok::<(), zorpedi::Refusal>(())
    /// ```
    pub fn mark(&self, code: u8) -> Mark {
        let bound = self.memory.bounds[usize::from(code)];
        let skip = self.memory.skips[usize::from(code)];
        match u8::try_from(skip) {
            Ok(reference) => Mark::Skipped { reference, bound },
            Err(_) if skip == SEARCHED => Mark::Searched { eccentricity: bound },
            Err(_) => Mark::Unmarked,
        }
    }
}

/// Row `code` of a table.
fn row_of(table: &[u64; 1024], code: u8) -> &[u64] {
    let first = 4 * usize::from(code);
    &table[first..first + 4]
}

impl PartialEq for Map {
    fn eq(&self, other: &Map) -> bool {
        let (a, b) = (&self.memory, &other.memory);
        a.record == b.record && a.links == b.links && a.pairs == b.pairs
    }
}

impl Eq for Map {}

impl Default for Map {
    fn default() -> Map {
        Map::new()
    }
}

impl fmt::Debug for Map {
    fn fmt(&self, f: &mut fmt::Formatter<'_>) -> fmt::Result {
        f.debug_struct("Map")
            .field("depots", &self.depots())
            .field("chain", &self.chain())
            .field("pairs", &self.pair_count())
            .finish_non_exhaustive()
    }
}

/// What a search found: the hop table and both layer rows, in memory of its own.
///
/// ```
/// let mut stream = zorpedi::Stream::new();
/// stream.push(b"010000\n01010100\n", &mut Vec::new())?;
/// let search = stream.map().search(0)?;
/// stream.push(b"01020101\n", &mut Vec::new())?;
/// assert_eq!(search.eccentricity(), 1); // as it was when it was searched
/// assert_eq!(stream.map().search(0)?.eccentricity(), 2);
/// # Ok::<(), zorpedi::Refusal>(())
/// ```
#[derive(Clone, Debug, PartialEq, Eq)]
pub struct Search {
    pub(crate) eccentricity: u16,
    pub(crate) depth: u16,
    pub(crate) hops: [u16; 256],
    pub(crate) even: [u64; 4],
    pub(crate) odd: [u64; 4],
}

impl Search {
    /// The greatest distance to a depot that delivers, 0 if there is none.
    pub fn eccentricity(&self) -> u16 {
        self.eccentricity
    }

    /// The greatest distance to an open depot, a yard or not: how deep the last layer lies.
    pub fn depth(&self) -> u16 {
        self.depth
    }

    /// The distance to a depot, if it is open.
    pub fn distance(&self, code: u8) -> Option<u16> {
        let hop = self.hops[usize::from(code)];
        (hop != FAR).then_some(hop)
    }

    /// The hop table: the distance to each code, 65,535 for a closed one.
    pub fn distances(&self) -> &[u16; 256] {
        &self.hops
    }

    /// The depots at the greatest distance, the depth, rising; yards are among them.
    pub fn last_layer(&self) -> Codes<'_> {
        codes(self.rows().0)
    }

    /// The depots one step nearer, rising; none if the depth is 0.
    pub fn layer_before(&self) -> Codes<'_> {
        codes(self.rows().1)
    }

    /// The row of the last layer, which goes by the depth's parity, and the other.
    fn rows(&self) -> (&[u64; 4], &[u64; 4]) {
        match self.depth % 2 {
            0 => (&self.even, &self.odd),
            _ => (&self.odd, &self.even),
        }
    }
}
