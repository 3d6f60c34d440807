use std::fmt;
use std::str::FromStr;

use crate::Mode;

/// A desk and its start: who sends (rule 1.5). A desk that starts again under another start is another desk.
///
/// ```
/// use lupaniele::{DeskId, Stamp};
/// let desk = DeskId::new(2, 5);
/// assert_eq!(Stamp::new(7, 2, 5).desk_id(), desk);
/// assert_eq!(desk.to_string(), "2.5");
/// ```
#[derive(Clone, Copy, Debug, Default, PartialEq, Eq, PartialOrd, Ord, Hash)]
pub struct DeskId {
    /// The desk, 1 or more; the store takes no stamp of desk 0.
    pub desk: u16,
    /// Its start, one that it never had before (rule 10.9).
    pub start: u16,
}

impl DeskId {
    /// This desk under this start.
    ///
    /// ```
    /// use lupaniele::DeskId;
    /// assert_eq!(DeskId::new(2, 5), DeskId { desk: 2, start: 5 });
    /// ```
    #[must_use]
    pub const fn new(desk: u16, start: u16) -> DeskId {
        DeskId { desk, start }
    }

    /// Both as the one number by which a queue names a desk.
    ///
    /// ```
    /// assert_eq!(lupaniele::DeskId::new(2, 5).number(), 0x0002_0005);
    /// ```
    #[must_use]
    pub const fn number(self) -> u32 {
        (self.desk as u32) << 16 | self.start as u32
    }
}

impl fmt::Display for DeskId {
    fn fmt(&self, to: &mut fmt::Formatter) -> fmt::Result {
        write!(to, "{}.{}", self.desk, self.start)
    }
}

/// A stamp, T.desk.start, compared as one number (rule 1.1). Whether it is valid is for the store to say.
///
/// ```
/// use lupaniele::Stamp;
/// let stamp = Stamp::new(1, 1, 0);
/// assert_eq!(stamp.number(), 4_295_032_832);
/// assert_eq!(stamp.to_string(), "1.1.0");
/// assert_eq!("1.1.0".parse(), Ok(stamp));
/// assert!(stamp < Stamp::new(2, 1, 0) && Stamp::NONE < stamp);
/// ```
#[derive(Clone, Copy, Default, PartialEq, Eq, PartialOrd, Ord, Hash)]
pub struct Stamp(u64);

impl Stamp {
    /// No stamp, zero (rule 1.2).
    ///
    /// ```
    /// assert_eq!(lupaniele::Stamp::NONE.number(), 0);
    /// ```
    pub const NONE: Stamp = Stamp(0);

    /// The stamp T.desk.start.
    ///
    /// ```
    /// use lupaniele::Stamp;
    /// assert_eq!(Stamp::new(7, 2, 5).to_string(), "7.2.5");
    /// ```
    #[must_use]
    pub const fn new(t: u32, desk: u16, start: u16) -> Stamp {
        Stamp((t as u64) << 32 | (desk as u64) << 16 | start as u64)
    }

    /// The stamp with this number.
    ///
    /// ```
    /// use lupaniele::Stamp;
    /// assert_eq!(Stamp::from_number(0), Stamp::NONE);
    /// ```
    #[must_use]
    pub const fn from_number(number: u64) -> Stamp {
        Stamp(number)
    }

    /// Its number.
    ///
    /// ```
    /// assert_eq!(lupaniele::Stamp::new(0, 1, 0).number(), 65_536);
    /// ```
    #[must_use]
    pub const fn number(self) -> u64 {
        self.0
    }

    /// Its T.
    ///
    /// ```
    /// assert_eq!(lupaniele::Stamp::new(7, 2, 5).t(), 7);
    /// ```
    #[must_use]
    pub const fn t(self) -> u32 {
        (self.0 >> 32) as u32
    }

    /// Its desk and start.
    ///
    /// ```
    /// use lupaniele::{DeskId, Stamp};
    /// assert_eq!(Stamp::new(7, 2, 5).desk_id(), DeskId::new(2, 5));
    /// ```
    #[must_use]
    pub const fn desk_id(self) -> DeskId {
        DeskId::new((self.0 >> 16) as u16, self.0 as u16)
    }
}

impl fmt::Display for Stamp {
    fn fmt(&self, to: &mut fmt::Formatter) -> fmt::Result {
        write!(to, "{}.{}", self.t(), self.desk_id())
    }
}

impl fmt::Debug for Stamp {
    fn fmt(&self, to: &mut fmt::Formatter) -> fmt::Result {
        fmt::Display::fmt(self, to)
    }
}

/// A stamp is written as three numbers with points between: T below 4,294,967,296, desk and start below 65,536.
///
/// ```
/// use lupaniele::{NotAStamp, Stamp};
/// assert_eq!("1.2".parse::<Stamp>(), Err(NotAStamp));
/// ```
#[derive(Clone, Copy, Debug, PartialEq, Eq)]
pub struct NotAStamp;

impl fmt::Display for NotAStamp {
    fn fmt(&self, to: &mut fmt::Formatter) -> fmt::Result {
        to.write_str("a stamp is written T.desk.start, such as 1.1.0")
    }
}

impl std::error::Error for NotAStamp {}

impl FromStr for Stamp {
    type Err = NotAStamp;

    fn from_str(text: &str) -> Result<Stamp, NotAStamp> {
        let mut parts = text.split('.');
        let (t, desk, start) = (parts.next(), parts.next(), parts.next());
        let (Some(t), Some(desk), Some(start), None) = (t, desk, start, parts.next()) else {
            return Err(NotAStamp);
        };
        match (t.parse(), desk.parse(), start.parse()) {
            (Ok(t), Ok(desk), Ok(start)) => Ok(Stamp::new(t, desk, start)),
            _ => Err(NotAStamp),
        }
    }
}

/// A pair: a shared and an exclusive stamp (rule 1.3).
///
/// ```
/// use lupaniele::{Pair, Stamp};
/// let pair = Pair::new(Stamp::new(2, 2, 0), Stamp::new(1, 1, 0));
/// assert_eq!(pair.to_string(), "(2.2.0, 1.1.0)");
/// assert_eq!(Pair::default(), Pair::NONE);
/// ```
#[derive(Clone, Copy, Debug, Default, PartialEq, Eq, Hash)]
pub struct Pair {
    /// The shared stamp.
    pub s: Stamp,
    /// The exclusive stamp.
    pub x: Stamp,
}

impl Pair {
    /// No stamps.
    ///
    /// ```
    /// use lupaniele::{Pair, Stamp};
    /// assert_eq!(Pair::NONE.s, Stamp::NONE);
    /// ```
    pub const NONE: Pair = Pair::new(Stamp::NONE, Stamp::NONE);

    /// The pair of these two.
    ///
    /// ```
    /// use lupaniele::{Pair, Stamp};
    /// assert_eq!(Pair::new(Stamp::NONE, Stamp::NONE), Pair::NONE);
    /// ```
    #[must_use]
    pub const fn new(s: Stamp, x: Stamp) -> Pair {
        Pair { s, x }
    }

    /// The mode's own stamp: s if shared, x if exclusive (rule 1.4).
    ///
    /// ```
    /// use lupaniele::{Mode, Pair, Stamp};
    /// let pair = Pair::new(Stamp::new(2, 2, 0), Stamp::new(1, 1, 0));
    /// assert_eq!(pair.own(Mode::Exclusive), Stamp::new(1, 1, 0));
    /// ```
    #[must_use]
    pub const fn own(self, mode: Mode) -> Stamp {
        match mode {
            Mode::Shared => self.s,
            Mode::Exclusive => self.x,
        }
    }

    pub(crate) const fn of([s, x]: [u64; 2]) -> Pair {
        Pair::new(Stamp(s), Stamp(x))
    }

    pub(crate) const fn numbers(self) -> [u64; 2] {
        [self.s.0, self.x.0]
    }
}

impl fmt::Display for Pair {
    fn fmt(&self, to: &mut fmt::Formatter) -> fmt::Result {
        write!(to, "({}, {})", self.s, self.x)
    }
}

/// A commit mark: a desk and a transaction (rule 1.7).
///
/// ```
/// use lupaniele::Mark;
/// assert_eq!(Mark::new(5, 7).to_string(), "(5, 7)");
/// assert_eq!(Mark::default(), Mark::NONE);
/// ```
#[derive(Clone, Copy, Debug, Default, PartialEq, Eq, Hash)]
pub struct Mark {
    /// The desk.
    pub desk: u16,
    /// The transaction.
    pub transaction: u32,
}

impl Mark {
    /// No mark.
    ///
    /// ```
    /// assert_eq!(lupaniele::Mark::NONE.desk, 0);
    /// ```
    pub const NONE: Mark = Mark::new(0, 0);

    /// The mark of this desk and transaction.
    ///
    /// ```
    /// use lupaniele::Mark;
    /// assert_eq!(Mark::new(5, 7), Mark { desk: 5, transaction: 7 });
    /// ```
    #[must_use]
    pub const fn new(desk: u16, transaction: u32) -> Mark {
        Mark { desk, transaction }
    }
}

impl fmt::Display for Mark {
    fn fmt(&self, to: &mut fmt::Formatter) -> fmt::Result {
        write!(to, "({}, {})", self.desk, self.transaction)
    }
}
