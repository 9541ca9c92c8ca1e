//! Outcomes as sentences, for screens in the hall: what a call did, what came of it, and the four figures of a report line, as one English sentence.
//! No two outcomes share a sentence, and a sentence alone gives its outcome back.
//!
//! ```
//! use zorpedi::sentence::{Event, Outcome};
//! use zorpedi::{Change, Refusal};
//!
//! let text = "Opening depot 5 shrank the chain: 6 open, chain 3, pairs 2, searches 6.";
//! let outcome: Outcome = text.parse()?;
//! assert_eq!(outcome, Outcome { event: Event::Depot(5), answer: Ok(Change::Shrank), depots: 6, chain: 3, pairs: 2, searches: 6 });
//! assert_eq!(outcome.to_string(), text);
//!
//! let refused = Outcome { event: Event::Link { first: 3, second: 5 }, answer: Err(7), ..outcome };
//! assert_eq!(refused.to_string(), "Linking 3 and 5 was refused with 7: 6 open, chain 3, pairs 2, searches 6.");
//!
//! let with_a_zero_in_front = "Opening depot 05 shrank the chain: 6 open, chain 3, pairs 2, searches 6.";
//! assert_eq!(with_a_zero_in_front.parse::<Outcome>(), Err(Refusal::Garbled));
//! # Ok::<(), Refusal>(())
//! ```
use crate::ffi::{self, Told};
use crate::map::Change;
use crate::refusal::Refusal;
use crate::version;
use std::fmt;
use std::str::FromStr;

/// The size of the buffer for a sentence.
pub const SENTENCE_LIMIT: usize = 160;

/// The kinds of an event, as frames number them.
const DEPOT: u8 = 1;
const LINK: u8 = 2;
const CLOSING: u8 = 3;
const YARD: u8 = 4;

/// What a call was to do. Codes have 16 bits here, though a map of this version has none above 255. Further kinds may come, so that a `match` needs
/// an arm for them.
///
/// ```
/// use zorpedi::sentence::{Event, Outcome};
///
/// let outcome: Outcome = "Closing 65535 was refused with 4: 0 open, chain 0, pairs 0, searches 0.".parse()?;
/// assert_eq!(outcome.event, Event::Closing(65_535));
/// # Ok::<(), zorpedi::Refusal>(())
/// ```
#[derive(Clone, Copy, Debug, PartialEq, Eq, Hash)]
#[non_exhaustive]
pub enum Event {
    /// A depot of this code was to be opened.
    Depot(u16),
    /// A yard of this code was to be opened.
    Yard(u16),
    /// Two depots were to be linked.
    Link {
        /// The code that the notice names first; it need not be the lower one.
        first: u16,
        /// The other code.
        second: u16,
    },
    /// The depot of this code was to be closed.
    Closing(u16),
}

/// The outcome of a call, all that a sentence tells. Every number is free within its width, whatever a map would give: that a closing made the chain
/// grow is a sentence too. `to_string` writes the sentence, without a line end, and `parse` takes a whole text for one; any other text is refused with
/// `Garbled`.
///
/// # Panics
///
/// Both, if the archive that is linked does not serve this crate: see [`Version`](crate::Version).
///
/// ```
/// use zorpedi::notice::{self, Notice};
/// use zorpedi::sentence::{Event, Outcome};
/// use zorpedi::{Map, Refusal};
///
/// let mut map = Map::new();
/// let (notice, _) = notice::read(b"010700\n")?;
/// let Notice::Opening { code, .. } = notice else { panic!("it opens a depot") };
/// let answer = map.apply(&notice);
/// let outcome = Outcome {
///     event: Event::Depot(code.into()),
///     answer: answer.map(|opened| opened.change).map_err(Refusal::number),
///     depots: map.depots(),
///     chain: map.chain(),
///     pairs: map.pair_count(),
///     searches: answer.map_or(0, |opened| opened.searches),
/// };
/// assert_eq!(outcome.to_string(), "Opening depot 7 kept the chain: 1 open, chain 0, pairs 0, searches 1.");
/// # Ok::<(), Refusal>(())
/// ```
#[derive(Clone, Copy, Debug, PartialEq, Eq, Hash)]
pub struct Outcome {
    /// What the call was to do.
    pub event: Event,
    /// How the longest chain changed, or the number of the refusal: any of 8 bits, whether it has a name or not.
    pub answer: Result<Change, u8>,
    /// The depots open after the call.
    pub depots: u16,
    /// The longest chain after it.
    pub chain: u16,
    /// The number of farthest pairs after it.
    pub pairs: u32,
    /// The depots that the call searched from.
    pub searches: u16,
}

impl Outcome {
    fn told(&self) -> Told {
        let (kind, code, other) = match self.event {
            Event::Depot(code) => (DEPOT, code, 0),
            Event::Link { first, second } => (LINK, first, second),
            Event::Closing(code) => (CLOSING, code, 0),
            Event::Yard(code) => (YARD, code, 0),
        };
        let (letter, refusal) = match self.answer {
            Ok(change) => (change.letter() as u8, 0),
            Err(refusal) => (0, refusal),
        };
        Told { kind, code, other, letter, refusal, depots: self.depots, chain: self.chain, pairs: self.pairs, searches: self.searches }
    }

    /// The outcome that these numbers tell; none if their kind or letter is one that this crate does not know.
    fn of(told: &Told) -> Option<Outcome> {
        let event = match told.kind {
            DEPOT => Event::Depot(told.code),
            LINK => Event::Link { first: told.code, second: told.other },
            CLOSING => Event::Closing(told.code),
            YARD => Event::Yard(told.code),
            _ => return None,
        };
        let answer = match told.letter {
            0 => Err(told.refusal),
            b'G' => Ok(Change::Grew),
            b'K' => Ok(Change::Kept),
            b'S' => Ok(Change::Shrank),
            _ => return None,
        };
        Some(Outcome { event, answer, depots: told.depots, chain: told.chain, pairs: told.pairs, searches: told.searches })
    }
}

impl fmt::Display for Outcome {
    fn fmt(&self, f: &mut fmt::Formatter<'_>) -> fmt::Result {
        version::require();
        let mut text = [0; SENTENCE_LIMIT];
        let mut length = 0;
        // It can be refused only for its size and for numbers that are no outcome's, and these are right.
        let refusal = ffi::sentence(&mut text, &mut length, &self.told());
        debug_assert_eq!(refusal, 0);
        f.pad(&text[..length].iter().map(|&b| char::from(b)).collect::<String>())
    }
}

impl FromStr for Outcome {
    type Err = Refusal;

    fn from_str(text: &str) -> Result<Outcome, Refusal> {
        version::require();
        let mut told = Told::default();
        Refusal::check(ffi::read_sentence(&mut told, text.as_bytes()))?;
        Outcome::of(&told).ok_or(Refusal::Garbled)
    }
}
