use crate::{Version, raw};

/// A stream: commands end to end (rules 8.1 and 8.2). It gives the bytes of each whole one in turn, malformed ones too.
///
/// ```
/// use lupaniele::{Command, Pair, Stamp, Stream, Version};
///
/// let command = Command::verify(0).shared(Pair::new(Stamp::new(1, 1, 0), Stamp::NONE));
/// let mut bytes = command.to_bytes(Version::One)?;
/// bytes.extend([0; 52 + 5]); // a malformed command, and five bytes of another
///
/// let stream = Stream::new(Version::One, &bytes);
/// assert_eq!(stream.end(), 104);
/// let parsed: Vec<_> = stream.map(|bytes| Command::parse(Version::One, bytes)).collect();
/// assert_eq!(parsed[0], Ok(command));
/// assert!(parsed[1].is_err() && parsed.len() == 2);
/// # Ok::<(), lupaniele::BuildError>(())
/// ```
#[derive(Clone, Debug)]
pub struct Stream<'a> {
    version: Version,
    bytes: &'a [u8],
    at: usize,
}

impl<'a> Stream<'a> {
    /// The stream in these bytes.
    ///
    /// ```
    /// use lupaniele::{Stream, Version};
    /// assert_eq!(Stream::new(Version::Two, &[0; 2 * 68]).count(), 2);
    /// ```
    #[must_use]
    pub fn new(version: Version, bytes: &'a [u8]) -> Stream<'a> {
        Stream {
            version,
            bytes,
            at: 0,
        }
    }

    /// Where the whole commands end: the beginning of the first that is not whole, or the end of the bytes.
    ///
    /// ```
    /// use lupaniele::{Stream, Version};
    /// assert_eq!(Stream::new(Version::One, &[0; 60]).end(), 52);
    /// ```
    #[must_use]
    pub fn end(&self) -> usize {
        let end = match self.version {
            Version::One => raw::end(self.bytes),
            Version::Two => raw::end_v2(self.bytes),
        };
        end as usize
    }

    /// Where the next command begins.
    ///
    /// ```
    /// use lupaniele::{Stream, Version};
    /// let mut stream = Stream::new(Version::One, &[0; 60]);
    /// assert!(stream.next().is_some());
    /// assert_eq!(stream.place(), 52);
    /// ```
    #[must_use]
    pub fn place(&self) -> usize {
        self.at
    }
}

impl<'a> Iterator for Stream<'a> {
    type Item = &'a [u8];

    fn next(&mut self) -> Option<&'a [u8]> {
        let (at, mut end) = (self.at as u64, 0);
        let whole = match self.version {
            Version::One => raw::next(self.bytes, at, &mut end),
            Version::Two => raw::next_v2(self.bytes, at, &mut end),
        };
        if !whole {
            return None;
        }
        let command = self.bytes.get(self.at..end as usize);
        self.at = end as usize;
        command
    }
}
