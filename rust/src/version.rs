use crate::ffi;
use std::fmt;

/// A version of the interface that the archive gives and this crate uses, as `include/zorpedi.h` counts it: the minor number rises when
/// something is added, the major number when something changes.
///
/// The archive is linked statically, so that nobody compares versions when a program starts. This crate does, before the archive is lent
/// anything: [`Map::new`](crate::Map::new) and [`Map::from_parts`](crate::Map::from_parts), and with them [`Stream::new`](crate::Stream::new),
/// [`notice::read`](crate::notice::read) and [`notice::write`](crate::notice::write), and [`Outcome`](crate::sentence::Outcome) both ways panic if
/// the archive does not serve this crate: its functions may take other arguments, and no call of them would be safe. A program that wants to say so
/// itself asks first:
///
/// ```
/// use zorpedi::Version;
///
/// let archive = Version::of_archive();
/// if !archive.serves() {
///     eprintln!("libzorpedi.a has version {archive}, {} is wanted", Version::WANTED);
/// }
/// # assert!(archive.serves());
/// ```
#[derive(Clone, Copy, Debug, PartialEq, Eq, Hash, PartialOrd, Ord)]
#[non_exhaustive]
pub struct Version {
    /// The major number.
    pub major: u32,
    /// The minor number.
    pub minor: u32,
}

impl Version {
    /// The version that this crate was written for.
    ///
    /// ```
    /// assert_eq!(zorpedi::Version::WANTED.to_string(), "4.1");
    /// ```
    pub const WANTED: Version = Version { major: 4, minor: 1 };

    /// The version of the archive that is linked.
    ///
    /// ```
    /// use zorpedi::Version;
    ///
    /// assert_eq!(Version::of_archive().major, Version::WANTED.major);
    /// ```
    pub fn of_archive() -> Version {
        let version = ffi::version();
        Version { major: version / 1000, minor: version % 1000 }
    }

    /// Whether an archive of this version serves this crate: the major number is the same, and the minor number not below.
    ///
    /// ```
    /// assert!(zorpedi::Version::WANTED.serves());
    /// ```
    pub fn serves(self) -> bool {
        self.major == Version::WANTED.major && self >= Version::WANTED
    }
}

impl fmt::Display for Version {
    fn fmt(&self, f: &mut fmt::Formatter<'_>) -> fmt::Result {
        write!(f, "{}.{}", self.major, self.minor)
    }
}

/// Panics unless the archive serves this crate.
pub(crate) fn require() {
    let archive = Version::of_archive();
    assert!(archive.serves(), "libzorpedi.a has version {archive}, this crate was written for {}", Version::WANTED);
}
