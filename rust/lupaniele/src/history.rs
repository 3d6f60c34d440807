use crate::{Answer, BuildError, Command, Stream, Version, raw};

/// The bytes in which a history keeps its commands (rule 14.3).
const KEPT: usize = 43_168;

/// The history engine (section 14 of the rules): it keeps the commands that it accepts, and answers as a store of
/// version 1 with so many cards and this room does, until it is full.
///
/// ```
/// use lupaniele::{Command, History, Number, Pair, Stamp};
///
/// let mut history = History::new(1, 16);
/// let stamp = Stamp::new(1, 1, 0);
/// let pair = Pair::new(stamp, stamp);
/// assert_eq!(history.answer(&Command::write_original(0, b"205").exclusive(pair), &mut [])?.edition, 1);
/// let mut reply = [0; 16];
/// let answer = history.answer(&Command::read_original(0).shared(pair), &mut reply)?;
/// assert_eq!(answer.text(&reply), b"205");
///
/// let verify = Command::verify(0).exclusive(pair);
/// while history.answer(&verify, &mut [])?.is_accepted() {}
/// assert_eq!(history.answer(&verify, &mut [])?.number, Number::HistoryFull);
/// assert_eq!(history.kept().count(), 200);
/// # Ok::<(), lupaniele::BuildError>(())
/// ```
#[derive(Clone, Debug, PartialEq, Eq)]
pub struct History {
    kept: Box<[u8; KEPT]>,
    used: u64,
    cards: u16,
    room: u16,
}

impl History {
    /// A history of nothing, for so many cards with this room.
    ///
    /// ```
    /// use lupaniele::History;
    /// assert_eq!(History::new(1, 16).kept().count(), 0);
    /// ```
    #[must_use]
    pub fn new(cards: u16, room: u16) -> History {
        History {
            kept: Box::new([0; KEPT]),
            used: 0,
            cards,
            room,
        }
    }

    /// One request (rules 14.7 to 14.9).
    ///
    /// # Errors
    ///
    /// Where the command has no bytes in version 1.
    ///
    /// ```
    /// use lupaniele::{Command, History, Pair, Stamp};
    /// let command = Command::verify(0).shared(Pair::new(Stamp::new(1, 1, 0), Stamp::NONE));
    /// assert!(History::new(1, 16).answer(&command, &mut [])?.is_accepted());
    /// # Ok::<(), lupaniele::BuildError>(())
    /// ```
    pub fn answer(&mut self, command: &Command, reply: &mut [u8]) -> Result<Answer, BuildError> {
        let bytes = command.to_bytes(Version::One)?;
        Ok(self.answer_bytes(&bytes, reply))
    }

    /// One request, in bytes: any bytes get their answer.
    ///
    /// ```
    /// use lupaniele::{History, Number};
    /// assert_eq!(History::new(1, 16).answer_bytes(b"", &mut []).number, Number::Malformed);
    /// ```
    pub fn answer_bytes(&mut self, command: &[u8], reply: &mut [u8]) -> Answer {
        let (used, mut fields) = (&mut self.used, [0; 7]);
        let (cards, room) = (self.cards, self.room);
        let number = raw::history_answer(
            &mut self.kept,
            used,
            cards,
            room,
            command,
            reply,
            &mut fields,
        );
        Answer::given(number, fields)
    }

    /// The commands that it keeps, the oldest first.
    ///
    /// ```
    /// use lupaniele::{Command, History, Pair, Stamp, Version};
    /// let command = Command::verify(0).shared(Pair::new(Stamp::new(1, 1, 0), Stamp::NONE));
    /// let mut history = History::new(1, 16);
    /// assert!(history.answer(&command, &mut [])?.is_accepted());
    /// let kept: Vec<_> = history.kept().map(|bytes| Command::parse(Version::One, bytes)).collect();
    /// assert_eq!(kept, [Ok(command)]);
    /// # Ok::<(), lupaniele::BuildError>(())
    /// ```
    #[must_use]
    pub fn kept(&self) -> Stream<'_> {
        let used = usize::try_from(self.used).unwrap_or(KEPT).min(KEPT);
        Stream::new(Version::One, &self.kept[..used])
    }
}
