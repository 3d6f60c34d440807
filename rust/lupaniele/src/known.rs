use crate::{DeskId, Mode, Number, Pair, raw};

/// What a desk knows of one card, and what it proposes from that (rules 10.1 to 10.7).
///
/// ```
/// use lupaniele::{DeskId, Known, Mode, Pair, Stamp};
///
/// let mut known = Known::nothing(DeskId::new(2, 5));
/// known.learn(Pair::new(Stamp::new(7, 2, 5), Stamp::new(3, 1, 0)));
/// let shared = known.propose(Mode::Shared)?;
/// assert_eq!(shared, Pair::new(Stamp::new(8, 2, 5), Stamp::new(3, 1, 0)));
/// let exclusive = known.propose(Mode::Exclusive)?;
/// assert_eq!(exclusive, Pair::new(Stamp::new(8, 2, 5), Stamp::new(3, 2, 5)));
/// # Ok::<(), lupaniele::Number>(())
/// ```
#[derive(Clone, Copy, Debug, PartialEq, Eq)]
pub struct Known {
    desk: DeskId,
    known: [u64; 2],
}

impl Known {
    /// A desk that has just started knows nothing (rule 10.9).
    ///
    /// ```
    /// use lupaniele::{DeskId, Known, Pair};
    /// assert_eq!(Known::nothing(DeskId::new(1, 0)).pair(), Pair::NONE);
    /// ```
    #[must_use]
    pub fn nothing(desk: DeskId) -> Known {
        Known {
            desk,
            known: [0; 2],
        }
    }

    /// The largest s and x that it has heard of.
    ///
    /// ```
    /// use lupaniele::{DeskId, Known, Pair};
    /// assert_eq!(Known::nothing(DeskId::new(1, 0)).pair(), Pair::NONE);
    /// ```
    #[must_use]
    pub fn pair(&self) -> Pair {
        Pair::of(self.known)
    }

    /// It learns the pair of an answer for that card (rule 10.2).
    ///
    /// ```
    /// use lupaniele::{DeskId, Known, Pair, Stamp};
    /// let mut known = Known::nothing(DeskId::new(1, 0));
    /// known.learn(Pair::new(Stamp::new(7, 2, 0), Stamp::NONE));
    /// known.learn(Pair::new(Stamp::new(3, 2, 0), Stamp::new(1, 1, 0)));
    /// assert_eq!(known.pair(), Pair::new(Stamp::new(7, 2, 0), Stamp::new(1, 1, 0)));
    /// ```
    pub fn learn(&mut self, pair: Pair) {
        let [s, x] = pair.numbers();
        raw::learn(&mut self.known, s, x);
    }

    /// It proposes a pair, and learns it (rules 10.3 to 10.7).
    ///
    /// # Errors
    ///
    /// [`Number::Malformed`] for desk 0, [`Number::NoStampLeft`] where it has no stamp left; nothing changes then.
    ///
    /// ```
    /// use lupaniele::{DeskId, Known, Mode, Number};
    /// let mut nobody = Known::nothing(DeskId::new(0, 0));
    /// assert_eq!(nobody.propose(Mode::Shared), Err(Number::Malformed));
    /// ```
    pub fn propose(&mut self, mode: Mode) -> Result<Pair, Number> {
        let (DeskId { desk, start }, mut pair) = (self.desk, [0; 2]);
        let number = raw::propose(desk, start, &mut self.known, mode.number(), &mut pair);
        Number::given(number).done()?;
        Ok(Pair::of(pair))
    }
}
