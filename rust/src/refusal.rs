use std::error::Error;
use std::fmt;

/// Why a call was refused, by the trade's words and numbers. A refused call has changed nothing. Further refusals may come, so that a `match`
/// needs an arm for them.
///
/// ```
/// use zorpedi::{Map, Refusal};
///
/// let refusal = Map::new().search(7).unwrap_err();
/// assert_eq!(refusal, Refusal::Absent);
/// assert_eq!(refusal.number(), 4);
/// assert_eq!(refusal.to_string(), "absent (4): the depot to be searched from, or one to be linked, is not open");
///
/// let is_the_notice = match refusal {
///     Refusal::Short | Refusal::Spoilt | Refusal::Apart => false,
///     Refusal::Taken | Refusal::Lonely | Refusal::Unsorted | Refusal::Unknown | Refusal::Garbled => true,
///     Refusal::Itself | Refusal::Linked => true,
///     _ => false,
/// };
/// assert!(!is_the_notice);
/// ```
///
/// ```compile_fail
/// let mine = zorpedi::Refusal::Other(5); // only the crate makes one
/// ```
#[derive(Clone, Copy, Debug, PartialEq, Eq, Hash, PartialOrd, Ord)]
#[non_exhaustive]
pub enum Refusal {
    /// 1: a lent buffer is too small.
    Short,
    /// 2: links are not sound; for an opening, a link, a batch and the stream, links or figures.
    Spoilt,
    /// 3: links are sound, but no walk leads from the lowest open code to some open depot.
    Apart,
    /// 4: the depot to be searched from, or whose near depots are asked, or one to be linked, is not open.
    Absent,
    /// 5: the depot to be opened is open already.
    Taken,
    /// 6: an opening has no neighbours, and the map has a depot.
    Lonely,
    /// 7: some neighbour is not above the one before it.
    Unsorted,
    /// 8: some neighbour is not open; the new depot itself is not.
    Unknown,
    /// 9: a line that spells no frame, or bytes that are no frame; in a batch, a link too.
    Garbled,
    /// 10: no depot of a list is open.
    Nobody,
    /// 11: a batch has more than 64 lines.
    Overfull,
    /// 12: a batch, and no depot is open.
    Bare,
    /// 13: a depot is to be linked with itself.
    Itself,
    /// 14: the depots to be linked are linked already.
    Linked,
    /// 15: a summary, and fewer than two open depots deliver.
    TooFew,
    /// Any other number, from an archive that is newer than this crate. Only the crate makes one, and [`Refusal::number`] gives the number.
    #[non_exhaustive]
    Other(u8),
}

/// The refusals that have a name, by their numbers, which begin at 1.
const NAMED: [Refusal; 15] = [
    Refusal::Short,
    Refusal::Spoilt,
    Refusal::Apart,
    Refusal::Absent,
    Refusal::Taken,
    Refusal::Lonely,
    Refusal::Unsorted,
    Refusal::Unknown,
    Refusal::Garbled,
    Refusal::Nobody,
    Refusal::Overfull,
    Refusal::Bare,
    Refusal::Itself,
    Refusal::Linked,
    Refusal::TooFew,
];

impl Refusal {
    /// The refusals that have a name, by rising numbers.
    ///
    /// ```
    /// use zorpedi::Refusal;
    ///
    /// let words: Vec<&str> = Refusal::all().take(3).map(Refusal::word).collect();
    /// assert_eq!(words, ["short", "spoilt", "apart"]);
    /// ```
    pub fn all() -> impl Iterator<Item = Refusal> {
        NAMED.into_iter()
    }

    /// The refusal's number: 1 to 15 for those that have a name.
    ///
    /// ```
    /// assert_eq!(zorpedi::Refusal::Garbled.number(), 9);
    /// ```
    pub const fn number(self) -> u8 {
        match self {
            Refusal::Short => 1,
            Refusal::Spoilt => 2,
            Refusal::Apart => 3,
            Refusal::Absent => 4,
            Refusal::Taken => 5,
            Refusal::Lonely => 6,
            Refusal::Unsorted => 7,
            Refusal::Unknown => 8,
            Refusal::Garbled => 9,
            Refusal::Nobody => 10,
            Refusal::Overfull => 11,
            Refusal::Bare => 12,
            Refusal::Itself => 13,
            Refusal::Linked => 14,
            Refusal::TooFew => 15,
            Refusal::Other(number) => number,
        }
    }

    /// The refusal with this number, if one has a name.
    ///
    /// ```
    /// use zorpedi::Refusal;
    ///
    /// assert_eq!(Refusal::from_number(5), Some(Refusal::Taken));
    /// assert_eq!(Refusal::from_number(0), None);
    /// ```
    pub fn from_number(number: u8) -> Option<Refusal> {
        Refusal::all().find(|refusal| refusal.number() == number)
    }

    /// The trade's word for it; empty where it has none.
    ///
    /// ```
    /// assert_eq!(zorpedi::Refusal::Lonely.word(), "lonely");
    /// ```
    pub const fn word(self) -> &'static str {
        match self {
            Refusal::Short => "short",
            Refusal::Spoilt => "spoilt",
            Refusal::Apart => "apart",
            Refusal::Absent => "absent",
            Refusal::Taken => "taken",
            Refusal::Lonely => "lonely",
            Refusal::Unsorted => "unsorted",
            Refusal::Unknown => "unknown",
            Refusal::Garbled => "garbled",
            Refusal::Nobody => "nobody",
            Refusal::Overfull => "overfull",
            Refusal::Bare => "bare",
            Refusal::Itself => "itself",
            Refusal::Linked => "linked",
            Refusal::TooFew => "too few",
            Refusal::Other(_) => "",
        }
    }

    const fn condition(self) -> &'static str {
        match self {
            Refusal::Short => "a lent buffer is too small",
            Refusal::Spoilt => "links or figures are not sound",
            Refusal::Apart => "no walk leads from the lowest open code to some open depot",
            Refusal::Absent => "the depot to be searched from, or one to be linked, is not open",
            Refusal::Taken => "the depot to be opened is open already",
            Refusal::Lonely => "an opening has no neighbours, and the map has a depot",
            Refusal::Unsorted => "some neighbour is not above the one before it",
            Refusal::Unknown => "some neighbour is not open",
            Refusal::Garbled => "a line that spells no frame, or bytes that are no frame",
            Refusal::Nobody => "no depot of a list is open",
            Refusal::Overfull => "a batch has more than 64 lines",
            Refusal::Bare => "a batch, and no depot is open",
            Refusal::Itself => "a depot is to be linked with itself",
            Refusal::Linked => "the depots to be linked are linked already",
            Refusal::TooFew => "a summary, and fewer than two open depots deliver",
            Refusal::Other(_) => "the archive is newer than the crate, which has no word for it",
        }
    }

    /// What the number of a call says that was not done.
    pub(crate) fn of(number: u8) -> Refusal {
        Refusal::from_number(number).unwrap_or(Refusal::Other(number))
    }

    /// A call's number, 0 being none.
    pub(crate) fn check(number: u8) -> Result<(), Refusal> {
        if number == 0 {
            Ok(())
        } else {
            Err(Refusal::of(number))
        }
    }
}

impl fmt::Display for Refusal {
    fn fmt(&self, f: &mut fmt::Formatter<'_>) -> fmt::Result {
        match self {
            Refusal::Other(number) => write!(f, "refused ({number}): {}", self.condition()),
            _ => write!(f, "{} ({}): {}", self.word(), self.number(), self.condition()),
        }
    }
}

impl Error for Refusal {}
