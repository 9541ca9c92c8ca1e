use crate::ffi::{self, Progress};
use crate::map::Map;
use crate::refusal::Refusal;
use crate::report::REPORT_LIMIT;

/// What a piece of the input came to.
///
/// ```
/// use zorpedi::{Fed, Stream};
///
/// let Fed { used, written, .. } = Stream::new().feed(b"010000\n01", &mut [0; 100])?;
/// assert_eq!((used, written), (9, 12));
/// # Ok::<(), zorpedi::Refusal>(())
/// ```
#[derive(Clone, Copy, Debug, PartialEq, Eq)]
#[non_exhaustive]
pub struct Fed {
    /// The bytes of the piece that were used. The others are to be fed again.
    pub used: usize,
    /// The bytes of reports written at the start of `out`.
    pub written: usize,
}

/// A stream of notice lines, openings of depots and yards and links, in pieces of any size: one report line comes out for each line that goes in. It starts
/// from an empty map and answers 1,000,000 lines at most.
///
/// ```
/// use zorpedi::Stream;
///
/// let mut stream = Stream::new();
/// let mut reports = Vec::new();
/// stream.push(b"010000\n0101", &mut reports)?;
/// stream.push(b"0100\n01020101\n020200\n0103", &mut reports)?;
/// stream.end(&mut reports)?;
/// assert_eq!(reports, b"1 K 1 0 0 1\n2 G 2 1 1 1\n3 G 3 2 1 1\n4 S 3 1 3 3\n5 R9 3 1 3 0\n");
/// assert_eq!(stream.map().chain(), 1);
/// # Ok::<(), zorpedi::Refusal>(())
/// ```
pub struct Stream {
    map: Map,
    progress: Box<Progress>,
}

impl Stream {
    /// The most lines that a stream answers.
    pub const LINES_LIMIT: u32 = 1_000_000;

    /// A stream at its begin: an empty map, no line read.
    ///
    /// # Panics
    ///
    /// If the archive that is linked does not serve this crate: see [`Version`](crate::Version).
    pub fn new() -> Stream {
        Stream { map: Map::new(), progress: Box::new(Progress { line: [0; 517], lines: 0, held: 0 }) }
    }

    /// Feeds a piece of the input and writes the reports of the lines that end in it into `out`. It stops before a line for whose report
    /// fewer than 48 bytes are free, and after the last line of a stream. The map is checked once a call, so feed large pieces.
    ///
    /// Refused with `Short` if `out` has fewer than 48 bytes.
    ///
    /// ```
    /// use zorpedi::{Refusal, Stream};
    ///
    /// let mut stream = Stream::new();
    /// let mut out = [0; 48];
    /// let input = b"010000\n01010100\n";
    /// let fed = stream.feed(input, &mut out)?;
    /// assert_eq!((fed.used, &out[..fed.written]), (7, &b"1 K 1 0 0 1\n"[..]));
    /// let fed = stream.feed(&input[7..], &mut out)?;
    /// assert_eq!((fed.used, &out[..fed.written]), (9, &b"2 G 2 1 1 1\n"[..]));
    /// assert_eq!(stream.feed(b"", &mut out[..47]), Err(Refusal::Short));
    /// # Ok::<(), Refusal>(())
    /// ```
    pub fn feed(&mut self, piece: &[u8], out: &mut [u8]) -> Result<Fed, Refusal> {
        let (mut used, mut written) = (0, 0);
        Refusal::check(ffi::feed(&mut self.map.memory, &mut self.progress, out, &mut used, &mut written, piece))?;
        Ok(Fed { used, written })
    }

    /// Ends the input and writes the report of a last stretch without 0A, if there is one; answers the bytes written.
    ///
    /// Refused with `Short` if `out` has fewer than 48 bytes.
    ///
    /// ```
    /// let mut stream = zorpedi::Stream::new();
    /// let mut out = [0; 48];
    /// stream.feed(b"010000", &mut out)?;
    /// let written = stream.finish(&mut out)?;
    /// assert_eq!(&out[..written], b"1 R9 0 0 0 0\n");
    /// # Ok::<(), zorpedi::Refusal>(())
    /// ```
    pub fn finish(&mut self, out: &mut [u8]) -> Result<usize, Refusal> {
        let mut written = 0;
        Refusal::check(ffi::finish(&mut self.map.memory, &mut self.progress, out, &mut written))?;
        Ok(written)
    }

    /// Feeds a whole piece and puts its reports behind `reports`. What follows the last line of a stream is not used.
    ///
    /// ```
    /// let mut reports = Vec::new();
    /// zorpedi::Stream::new().push(b"\n010000\n", &mut reports)?;
    /// assert_eq!(reports, b"1 R9 0 0 0 0\n2 K 1 0 0 1\n");
    /// # Ok::<(), zorpedi::Refusal>(())
    /// ```
    pub fn push(&mut self, piece: &[u8], reports: &mut Vec<u8>) -> Result<(), Refusal> {
        let mut out = vec![0; 1 << 16];
        let mut rest = piece;
        while !rest.is_empty() {
            let fed = self.feed(rest, &mut out)?;
            if fed.used == 0 {
                break;
            }
            reports.extend_from_slice(&out[..fed.written]);
            rest = &rest[fed.used..];
        }
        Ok(())
    }

    /// Ends the input, and puts the report of a last stretch behind `reports`.
    ///
    /// ```
    /// let mut reports = Vec::new();
    /// zorpedi::Stream::new().end(&mut reports)?;
    /// assert!(reports.is_empty());
    /// # Ok::<(), zorpedi::Refusal>(())
    /// ```
    pub fn end(&mut self, reports: &mut Vec<u8>) -> Result<(), Refusal> {
        let mut out = [0; REPORT_LIMIT];
        let written = self.finish(&mut out)?;
        reports.extend_from_slice(&out[..written]);
        Ok(())
    }

    /// The lines answered.
    ///
    /// ```
    /// assert_eq!(zorpedi::Stream::new().lines(), 0);
    /// ```
    pub fn lines(&self) -> u32 {
        self.progress.lines
    }

    /// The map as the lines so far have left it.
    ///
    /// ```
    /// let mut stream = zorpedi::Stream::new();
    /// stream.push(b"010700\n01080107\n", &mut Vec::new())?;
    /// assert_eq!(stream.map().search(7)?.distance(8), Some(1));
    /// # Ok::<(), zorpedi::Refusal>(())
    /// ```
    pub fn map(&self) -> &Map {
        &self.map
    }

    /// The map, to go on with it without the stream.
    ///
    /// ```
    /// let mut map = zorpedi::Stream::new().into_map();
    /// assert!(map.open(1, &[]).is_ok());
    /// ```
    pub fn into_map(self) -> Map {
        self.map
    }
}

impl Default for Stream {
    fn default() -> Stream {
        Stream::new()
    }
}
