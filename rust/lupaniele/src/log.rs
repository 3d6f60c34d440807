use std::fmt;

use crate::bytes::{slice_at, u8_at, u16_at, u32_at};
use crate::due::due;
use crate::{Image, Number, Pair, raw};

/// The bytes of a log in front of its bodies (rule 11.1), the fewest that a log has.
///
/// ```
/// assert_eq!(lupaniele::LOG_TABLE, 2_201);
/// ```
pub const LOG_TABLE: usize = 2_201;

/// The most bytes that a log has (rule 11.1).
///
/// ```
/// assert_eq!(lupaniele::LARGEST_LOG, 65_536);
/// ```
pub const LARGEST_LOG: usize = 65_536;

/// The lines of the table.
const RECORDS: usize = 200;

/// The bytes of a line of the table.
const LINE: usize = 11;

/// Which text of a card an update writes (rule 11.4).
///
/// ```
/// use lupaniele::Side;
/// assert_eq!(Side::from_number(2), Some(Side::Translation));
/// assert_eq!(Side::Original.number(), 1);
/// ```
#[derive(Clone, Copy, Debug, PartialEq, Eq, PartialOrd, Ord, Hash)]
pub enum Side {
    /// The original.
    Original = 1,
    /// The translation.
    Translation = 2,
}

impl Side {
    /// Its number.
    ///
    /// ```
    /// assert_eq!(lupaniele::Side::Translation.number(), 2);
    /// ```
    #[must_use]
    pub const fn number(self) -> u8 {
        self as u8
    }

    /// The side with this number.
    ///
    /// ```
    /// use lupaniele::Side;
    /// assert_eq!((Side::from_number(1), Side::from_number(3)), (Some(Side::Original), None));
    /// ```
    #[must_use]
    pub const fn from_number(number: u8) -> Option<Side> {
        match number {
            1 => Some(Side::Original),
            2 => Some(Side::Translation),
            _ => None,
        }
    }
}

/// A record of a log (rules 11.3 and 11.4).
///
/// ```
/// use lupaniele::Record;
/// let record = Record::Begin(7);
/// assert_eq!((record.kind(), record.body()), (1, vec![7, 0, 0, 0]));
/// assert_eq!(record.to_string(), "begin 7");
/// ```
#[derive(Clone, Copy, Debug, PartialEq, Eq, Hash)]
pub enum Record<'a> {
    /// A transaction begins.
    Begin(u32),
    /// The open transaction is to write a text.
    Update {
        /// The card.
        card: u16,
        /// Which of its texts.
        side: Side,
        /// The text.
        text: &'a [u8],
    },
    /// The open transaction is to be done whole.
    Commit(u32),
    /// What a transaction, and each before it, wrote on a card stands in the store.
    Synced {
        /// The card.
        card: u16,
        /// The transaction.
        transaction: u32,
    },
}

impl<'a> Record<'a> {
    /// The number of its kind.
    ///
    /// ```
    /// use lupaniele::Record;
    /// assert_eq!(Record::Commit(7).kind(), 3);
    /// ```
    #[must_use]
    pub const fn kind(&self) -> u8 {
        match self {
            Record::Begin(_) => 1,
            Record::Update { .. } => 2,
            Record::Commit(_) => 3,
            Record::Synced { .. } => 4,
        }
    }

    /// Its body, in bytes.
    ///
    /// ```
    /// use lupaniele::Record;
    /// assert_eq!(Record::Synced { card: 1, transaction: 7 }.body(), [1, 0, 7, 0, 0, 0]);
    /// ```
    #[must_use]
    pub fn body(&self) -> Vec<u8> {
        match self {
            Record::Begin(transaction) | Record::Commit(transaction) => {
                transaction.to_le_bytes().to_vec()
            }
            Record::Update { card, side, text } => {
                [&card.to_le_bytes()[..], &[side.number()], text].concat()
            }
            Record::Synced { card, transaction } => {
                [&card.to_le_bytes()[..], &transaction.to_le_bytes()].concat()
            }
        }
    }

    /// How many stores of one byte its append makes (rule 11.10): its body, its line, the count.
    ///
    /// ```
    /// use lupaniele::Record;
    /// assert_eq!(Record::Begin(7).stores(), 16);
    /// ```
    #[must_use]
    pub fn stores(&self) -> u64 {
        (self.body().len() + LINE + 1) as u64
    }

    /// The record of this kind with that body, if they are one.
    ///
    /// ```
    /// use lupaniele::Record;
    /// assert_eq!(Record::parse(3, &[7, 0, 0, 0]), Some(Record::Commit(7)));
    /// assert_eq!(Record::parse(3, &[7]), None);
    /// ```
    #[must_use]
    pub fn parse(kind: u8, body: &'a [u8]) -> Option<Record<'a>> {
        match (kind, body) {
            (1, [_, _, _, _]) => Some(Record::Begin(u32_at(body, 0))),
            (3, [_, _, _, _]) => Some(Record::Commit(u32_at(body, 0))),
            (2, [_, _, side, text @ ..]) => Some(Record::Update {
                card: u16_at(body, 0),
                side: Side::from_number(*side)?,
                text,
            }),
            (4, [_, _, _, _, _, _]) => Some(Record::Synced {
                card: u16_at(body, 0),
                transaction: u32_at(body, 2),
            }),
            _ => None,
        }
    }
}

impl fmt::Display for Record<'_> {
    fn fmt(&self, to: &mut fmt::Formatter) -> fmt::Result {
        match self {
            Record::Begin(transaction) => write!(to, "begin {transaction}"),
            Record::Update { card, side, text } => {
                let side = match side {
                    Side::Original => "original",
                    Side::Translation => "translation",
                };
                write!(
                    to,
                    "update card {card} {side} {:?}",
                    String::from_utf8_lossy(text)
                )
            }
            Record::Commit(transaction) => write!(to, "commit {transaction}"),
            Record::Synced { card, transaction } => write!(to, "synced card {card} {transaction}"),
        }
    }
}

/// A good redo log of a desk (section 11 of the rules), owned or lent.
///
/// ```
/// use lupaniele::{Image, Log, Number, Pair, Record, Side, Stamp, Version};
///
/// let mut log = Log::empty(4_096)?;
/// log.append(&Record::Begin(1))?;
/// log.append(&Record::Update { card: 0, side: Side::Original, text: b"205" })?;
/// log.append(&Record::Commit(1))?;
/// assert_eq!(log.append(&Record::Begin(1)), Err(Number::BadLog)); // a transaction begins once
///
/// // The power fails in the middle of an append: the log is what it was.
/// assert_eq!(log.append_cut(&Record::Begin(2), 9), Number::AppendCut);
/// assert_eq!(log.records().count(), 3);
///
/// let mut image = Image::make(Version::One, 1, 16)?;
/// let stamp = Stamp::new(1, 1, 0);
/// log.recover(&mut image, &[Pair::new(stamp, stamp)])?;
/// assert_eq!(image.card(0).map(|card| card.original()), Some(&b"205"[..]));
/// # Ok::<(), Box<dyn std::error::Error>>(())
/// ```
#[derive(Clone, Debug, PartialEq, Eq)]
pub struct Log<B = Vec<u8>> {
    bytes: B,
}

impl Log {
    /// An empty log of so many bytes.
    ///
    /// # Errors
    ///
    /// [`Number::BadLog`] unless they are [`LOG_TABLE`] to [`LARGEST_LOG`].
    ///
    /// ```
    /// use lupaniele::{LOG_TABLE, Log, Number};
    /// assert!(Log::empty(LOG_TABLE).is_ok());
    /// assert_eq!(Log::empty(LOG_TABLE - 1), Err(Number::BadLog));
    /// assert_eq!(Log::empty(usize::MAX), Err(Number::BadLog));
    /// ```
    pub fn empty(length: usize) -> Result<Log, Number> {
        // One byte more than a log has is refused as any larger number is.
        Log::check(vec![0; length.min(LARGEST_LOG + 1)])
    }
}

impl<B: AsRef<[u8]>> Log<B> {
    /// The log in some bytes.
    ///
    /// # Errors
    ///
    /// [`Number::BadLog`] where they are no good log (rule 11.6).
    ///
    /// ```
    /// use lupaniele::{Log, Number};
    /// assert_eq!(Log::check(&[1; 4_096][..]), Err(Number::BadLog));
    /// ```
    pub fn check(bytes: B) -> Result<Log<B>, Number> {
        Number::given(raw::log_check(bytes.as_ref())).done()?;
        Ok(Log { bytes })
    }

    /// Its bytes.
    ///
    /// ```
    /// assert_eq!(lupaniele::Log::empty(4_096)?.bytes(), [0; 4_096]);
    /// # Ok::<(), lupaniele::Number>(())
    /// ```
    #[must_use]
    pub fn bytes(&self) -> &[u8] {
        self.bytes.as_ref()
    }

    /// Its bytes, as they were lent.
    ///
    /// ```
    /// use lupaniele::Log;
    /// let bytes = Log::empty(4_096)?.into_bytes();
    /// assert!(Log::check(bytes).is_ok());
    /// # Ok::<(), lupaniele::Number>(())
    /// ```
    #[must_use]
    pub fn into_bytes(self) -> B {
        self.bytes
    }

    /// How many records it has.
    ///
    /// ```
    /// assert_eq!(lupaniele::Log::empty(4_096)?.count(), 0);
    /// # Ok::<(), lupaniele::Number>(())
    /// ```
    #[must_use]
    pub fn count(&self) -> u8 {
        u8_at(self.bytes(), 0)
    }

    /// Its records, in order: what is read back of it (rule 11.7).
    ///
    /// ```
    /// use lupaniele::{Log, Record};
    /// let mut log = Log::empty(4_096)?;
    /// log.append(&Record::Begin(1))?;
    /// assert!(log.records().eq([Record::Begin(1)]));
    /// # Ok::<(), lupaniele::Number>(())
    /// ```
    pub fn records(&self) -> impl Iterator<Item = Record<'_>> + '_ {
        (0..self.count().into()).filter_map(|at| {
            let (kind, place, length) = self.line(at);
            Record::parse(kind, slice_at(self.bytes(), place, length))
        })
    }

    /// The last transaction that began; 0 if none did.
    ///
    /// ```
    /// use lupaniele::{Log, Record};
    /// let mut log = Log::empty(4_096)?;
    /// log.append(&Record::Begin(7))?;
    /// assert_eq!(log.last_begun(), 7);
    /// # Ok::<(), lupaniele::Number>(())
    /// ```
    #[must_use]
    pub fn last_begun(&self) -> u32 {
        let begun = self.records().filter_map(|record| match record {
            Record::Begin(transaction) => Some(transaction),
            _ => None,
        });
        begun.last().unwrap_or(0)
    }

    /// The updates that are due, each by its record, from 0, and its transaction (rule 11.15).
    ///
    /// ```
    /// use lupaniele::{Log, Record, Side};
    /// let mut log = Log::empty(4_096)?;
    /// log.append(&Record::Begin(7))?;
    /// log.append(&Record::Update { card: 0, side: Side::Original, text: b"205" })?;
    /// assert_eq!(log.due(), []);
    /// log.append(&Record::Commit(7))?;
    /// assert_eq!(log.due(), [(1, 7)]);
    /// # Ok::<(), lupaniele::Number>(())
    /// ```
    #[must_use]
    pub fn due(&self) -> Vec<(usize, u32)> {
        due(self)
    }

    /// Kind, place and length of a line.
    fn line(&self, at: usize) -> (u8, usize, usize) {
        let line = slice_at(self.bytes(), 1 + LINE * at, LINE);
        (
            u8_at(line, 0),
            u32_at(line, 1) as usize,
            u16_at(line, 5).into(),
        )
    }

    /// Where the bodies end.
    fn end(&self) -> usize {
        match usize::from(self.count()).checked_sub(1) {
            None => LOG_TABLE,
            Some(last) => {
                let (_, place, length) = self.line(last);
                place + length
            }
        }
    }

    /// Whether nothing in it is due (rule 11.15), so that it may begin again.
    ///
    /// ```
    /// use lupaniele::{Log, Record, Side};
    /// let mut log = Log::empty(4_096)?;
    /// log.append(&Record::Begin(7))?;
    /// log.append(&Record::Update { card: 0, side: Side::Original, text: b"205" })?;
    /// assert!(log.nothing_due());
    /// log.append(&Record::Commit(7))?;
    /// assert!(!log.nothing_due());
    /// # Ok::<(), lupaniele::Number>(())
    /// ```
    #[must_use]
    pub fn nothing_due(&self) -> bool {
        raw::log_begin_again(&mut self.bytes().to_vec())
    }

    /// The cards that it updates, committed or not, in the order of their first updates.
    pub(crate) fn updated(&self) -> Vec<u16> {
        let mut cards = Vec::new();
        for record in self.records() {
            match record {
                Record::Update { card, .. } if !cards.contains(&card) => cards.push(card),
                _ => {}
            }
        }
        cards
    }

    /// A log of the same length that begins again, if nothing of this one is due (rule 11.15): it has no record but the
    /// begin of the last transaction that began here, so that transactions go on rising.
    ///
    /// ```
    /// use lupaniele::{Log, Record, Side};
    /// let mut log = Log::empty(4_096)?;
    /// log.append(&Record::Begin(7))?;
    /// log.append(&Record::Update { card: 0, side: Side::Original, text: b"205" })?;
    /// log.append(&Record::Commit(7))?;
    /// assert_eq!(log.begun_again(), None);
    /// log.append(&Record::Synced { card: 0, transaction: 7 })?;
    /// let new = log.begun_again().ok_or("something is due")?;
    /// assert!(new.records().eq([Record::Begin(7)]));
    /// # Ok::<(), Box<dyn std::error::Error>>(())
    /// ```
    #[must_use]
    pub fn begun_again(&self) -> Option<Log> {
        if !self.nothing_due() {
            return None;
        }
        let mut log = Log::empty(self.bytes().len()).ok()?;
        match self.last_begun() {
            0 => Some(log),
            last => log.append(&Record::Begin(last)).ok().map(|()| log),
        }
    }

    /// Whether a commit and so many synced records still fit (rule 11.11).
    pub(crate) fn has_room_to_finish(&self, cards: usize) -> bool {
        let (lines, bytes) = (
            usize::from(self.count()) + 1 + cards,
            self.end() + 4 + 6 * cards,
        );
        lines <= RECORDS && bytes <= self.bytes().len()
    }

    /// Sends each update that is due through the guard of an image of version 1, each under the exclusive pair given
    /// for its card (rules 11.15 to 11.20).
    ///
    /// # Errors
    ///
    /// The number of the write that was refused, and its record; those before it stand.
    ///
    /// ```
    /// use lupaniele::{Image, Log, Number, Record, Side, Version};
    /// let mut log = Log::empty(4_096)?;
    /// log.append(&Record::Begin(1))?;
    /// log.append(&Record::Update { card: 0, side: Side::Original, text: b"205" })?;
    /// log.append(&Record::Commit(1))?;
    /// let stopped = log.recover(&mut Image::make(Version::One, 1, 16)?, &[]).unwrap_err();
    /// assert_eq!((stopped.number, stopped.line), (Number::Malformed, 1)); // no pair was given
    /// # Ok::<(), Number>(())
    /// ```
    pub fn recover<I: AsMut<[u8]>>(
        &self,
        image: &mut Image<I>,
        pairs: &[Pair],
    ) -> Result<(), Stopped> {
        let s: Vec<u64> = pairs.iter().map(|pair| pair.s.number()).collect();
        let x: Vec<u64> = pairs.iter().map(|pair| pair.x.number()).collect();
        let mut line = 0;
        let number = raw::recover(self.bytes(), image.bytes_mut(), &s, &x, &mut line);
        let line = line as usize;
        let stopped = |number| Stopped { number, line };
        Number::given(number).done().map_err(stopped)
    }
}

impl<B: AsRef<[u8]>> AsRef<[u8]> for Log<B> {
    fn as_ref(&self) -> &[u8] {
        self.bytes.as_ref()
    }
}

impl<B: AsRef<[u8]> + AsMut<[u8]>> Log<B> {
    /// Appends a record.
    ///
    /// # Errors
    ///
    /// [`Number::BadLog`] where the record may not stand next (rules 11.4 and 11.5), [`Number::LogFull`] where there is
    /// no room for it.
    ///
    /// ```
    /// use lupaniele::{LOG_TABLE, Log, Number, Record};
    /// let mut log = Log::empty(LOG_TABLE)?; // no room for a body
    /// assert_eq!(log.append(&Record::Begin(1)), Err(Number::LogFull));
    /// # Ok::<(), Number>(())
    /// ```
    pub fn append(&mut self, record: &Record) -> Result<(), Number> {
        self.append_cut(record, u64::MAX).done()
    }

    /// Appends a record as far as the first so many stores of one byte go (rules 11.9 to 11.12): for tests of a power
    /// cut.
    ///
    /// ```
    /// use lupaniele::{Log, Number, Record};
    /// let mut log = Log::empty(4_096)?;
    /// assert_eq!(log.append_cut(&Record::Begin(1), 15), Number::AppendCut);
    /// assert_eq!(log.append_cut(&Record::Begin(1), 16), Number::Accepted);
    /// # Ok::<(), Number>(())
    /// ```
    pub fn append_cut(&mut self, record: &Record, stores: u64) -> Number {
        let body = record.body();
        Number::given(raw::log_append(
            self.bytes.as_mut(),
            record.kind(),
            &body,
            stores,
        ))
    }

    /// Begins again by one store, if nothing in it is due (rule 16.27); whether it did. Its transactions may then have any
    /// numbers; [`begun_again`](Log::begun_again) has them go on rising.
    ///
    /// ```
    /// use lupaniele::{Log, Record};
    /// let mut log = Log::empty(4_096)?;
    /// log.append(&Record::Begin(7))?;
    /// assert!(log.begin_again());
    /// assert_eq!(log.count(), 0);
    /// # Ok::<(), lupaniele::Number>(())
    /// ```
    pub fn begin_again(&mut self) -> bool {
        raw::log_begin_again(self.bytes.as_mut())
    }

    /// Appends a record in three steps, and has each written out before the next: its body, its line, the count (rule
    /// 11.10). If the power fails in between, what was written out reads back as the log before. `write` puts the bytes
    /// at their place in whatever keeps the log, and sees to it that they are kept before it returns.
    ///
    /// # Errors
    ///
    /// Why nothing was appended, or, after a fault of the last write, that it is not known: then the log is to be read
    /// back.
    ///
    /// ```
    /// use lupaniele::{Log, LogPart, Record};
    /// let mut log = Log::empty(4_096)?;
    /// let mut kept = log.bytes().to_vec();
    /// let mut parts = Vec::new();
    /// log.append_durably(&Record::Begin(1), |part, at, bytes| {
    ///     parts.push(part);
    ///     kept[at..at + bytes.len()].copy_from_slice(bytes);
    ///     Ok::<(), std::io::Error>(())
    /// })?;
    /// assert_eq!(parts, [LogPart::Body, LogPart::Line, LogPart::Count]);
    /// assert_eq!(kept, log.bytes());
    /// # Ok::<(), Box<dyn std::error::Error>>(())
    /// ```
    pub fn append_durably<E>(
        &mut self,
        record: &Record,
        mut write: impl FnMut(LogPart, usize, &[u8]) -> Result<(), E>,
    ) -> Result<(), AppendError<E>> {
        let (body, kind) = (record.body(), record.kind());
        let (end, line, length) = (
            self.end(),
            1 + LINE * usize::from(self.count()),
            body.len() as u64,
        );
        let steps = [
            (LogPart::Body, length, end, body.len()),
            (LogPart::Line, length + 11, line, LINE),
            (LogPart::Count, length + 12, 0, 1),
        ];
        for (part, stores, at, count) in steps {
            let number = Number::given(raw::log_append(self.bytes.as_mut(), kind, &body, stores));
            if number != Number::AppendCut {
                number.done().map_err(AppendError::Refused)?;
            }
            let written = write(part, at, slice_at(self.bytes.as_ref(), at, count));
            written.map_err(|why| match part {
                LogPart::Count => AppendError::Unknown(why),
                _ => AppendError::NotAppended(why),
            })?;
        }
        Ok(())
    }
}

/// A part of what an append stores (rule 11.10).
///
/// ```
/// use lupaniele::LogPart;
/// assert!(LogPart::Body < LogPart::Line && LogPart::Line < LogPart::Count);
/// ```
#[derive(Clone, Copy, Debug, PartialEq, Eq, PartialOrd, Ord, Hash)]
pub enum LogPart {
    /// The record's body.
    Body,
    /// Its line in the table.
    Line,
    /// The count of records: from here on the record stands.
    Count,
}

/// Why a record was not appended, or may not have been.
///
/// ```
/// use lupaniele::{AppendError, Log, Record};
/// let mut log = Log::empty(4_096)?;
/// let cut = log.append_durably(&Record::Begin(1), |_, _, _| Err("no disk"));
/// assert_eq!(cut, Err(AppendError::NotAppended("no disk")));
/// assert_eq!(log.count(), 0);
/// # Ok::<(), lupaniele::Number>(())
/// ```
#[derive(Clone, Copy, Debug, PartialEq, Eq)]
pub enum AppendError<E> {
    /// The log refused the record; nothing was written.
    Refused(Number),
    /// Its body or its line was not written out; the log reads back as before.
    NotAppended(E),
    /// The count may be written out or not: the log is to be read back.
    Unknown(E),
}

impl<E: fmt::Display> fmt::Display for AppendError<E> {
    fn fmt(&self, to: &mut fmt::Formatter) -> fmt::Result {
        match self {
            AppendError::Refused(number) => write!(to, "the log refused the record: {number}"),
            AppendError::NotAppended(why) => write!(to, "the record was not appended: {why}"),
            AppendError::Unknown(why) => {
                write!(
                    to,
                    "the record may be appended or not, so read the log back: {why}"
                )
            }
        }
    }
}

impl<E: fmt::Display + fmt::Debug> std::error::Error for AppendError<E> {}

/// Where a recovery stopped (rule 11.19).
///
/// ```
/// use lupaniele::{Number, Stopped};
/// let stopped = Stopped { number: Number::Stale, line: 2 };
/// assert_eq!(stopped.to_string(), "recovery stopped at record 2: stale");
/// ```
#[derive(Clone, Copy, Debug, PartialEq, Eq)]
pub struct Stopped {
    /// The number of the write that was refused.
    pub number: Number,
    /// Its record, from 0.
    pub line: usize,
}

impl fmt::Display for Stopped {
    fn fmt(&self, to: &mut fmt::Formatter) -> fmt::Result {
        write!(
            to,
            "recovery stopped at record {}: {}",
            self.line, self.number
        )
    }
}

impl std::error::Error for Stopped {}
