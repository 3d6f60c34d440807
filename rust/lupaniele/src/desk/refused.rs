use std::fmt;

use crate::{Answer, BuildError, Mark, Number};

/// Why something that a desk did came to nothing. `E` is what the transport, or the log, says.
///
/// ```
/// use lupaniele::desk::{Failed, Refusal};
/// let why: Failed<std::io::Error> = Failed::Refused(Refusal::Stale { tries: 8 });
/// assert_eq!(why.to_string(), "stale, 8 times over");
/// assert_eq!(why.number(), Some(lupaniele::Number::Stale));
/// ```
#[derive(Clone, Copy, Debug, PartialEq, Eq)]
pub enum Failed<E> {
    /// The store refused it.
    Refused(Refusal),
    /// No answer came back. Whether the store got the command is not known: what it was to write may be written, or be
    /// later.
    Transport(E),
    /// The desk can propose no pair for this card.
    NoPair(Number),
    /// The command has no bytes in the store's version.
    Command(BuildError),
    /// The original is of another card than the session is on.
    OtherCard,
}

/// Why the store refused something.
///
/// ```
/// use lupaniele::Mark;
/// use lupaniele::desk::Refusal;
/// let refusal = Refusal::Marked(Mark::new(5, 7));
/// assert_eq!(refusal.to_string(), "transaction 7 of desk 5 is not written out yet");
/// ```
#[derive(Clone, Copy, Debug, PartialEq, Eq)]
pub enum Refusal {
    /// Others were quicker, each time.
    Stale {
        /// How often it was tried.
        tries: u32,
    },
    /// The card bears the mark of a transaction that may not be written out whole: until that desk has done so, or
    /// somebody has recovered its log for it, nobody reads or writes the card.
    Marked(Mark),
    /// The translation is behind, or the original is no longer the one that it was made from.
    Behind {
        /// The edition of the original that stands.
        edition: u16,
        /// The edition that the stored translation was made from.
        translated_from: u16,
    },
    /// Any other number.
    Other(Number),
}

impl Refusal {
    /// The refusal in an answer that is none of acceptance.
    pub(super) fn of(answer: &Answer) -> Refusal {
        match answer.number {
            Number::Stale => Refusal::Stale { tries: 1 },
            Number::MarkDiffers => Refusal::Marked(answer.mark),
            Number::EditionWrong => Refusal::Behind {
                edition: answer.edition,
                translated_from: answer.translated_from,
            },
            number => Refusal::Other(number),
        }
    }

    /// Its number.
    ///
    /// ```
    /// use lupaniele::Number;
    /// use lupaniele::desk::Refusal;
    /// assert_eq!(Refusal::Stale { tries: 1 }.number(), Number::Stale);
    /// ```
    #[must_use]
    pub fn number(self) -> Number {
        match self {
            Refusal::Stale { .. } => Number::Stale,
            Refusal::Marked(_) => Number::MarkDiffers,
            Refusal::Behind { .. } => Number::EditionWrong,
            Refusal::Other(number) => number,
        }
    }
}

impl<E> Failed<E> {
    /// The number of the answer that said no, if one did.
    ///
    /// ```
    /// use lupaniele::Number;
    /// use lupaniele::desk::Failed;
    /// assert_eq!(Failed::<()>::NoPair(Number::NoStampLeft).number(), Some(Number::NoStampLeft));
    /// assert_eq!(Failed::Transport(()).number(), None);
    /// ```
    #[must_use]
    pub fn number(&self) -> Option<Number> {
        match self {
            Failed::Refused(refusal) => Some(refusal.number()),
            Failed::NoPair(number) => Some(*number),
            _ => None,
        }
    }
}

impl fmt::Display for Refusal {
    fn fmt(&self, to: &mut fmt::Formatter) -> fmt::Result {
        match self {
            Refusal::Stale { tries: 1 } => to.write_str("stale"),
            Refusal::Stale { tries } => write!(to, "stale, {tries} times over"),
            Refusal::Marked(Mark { desk, transaction }) => {
                write!(
                    to,
                    "transaction {transaction} of desk {desk} is not written out yet"
                )
            }
            Refusal::Behind {
                edition,
                translated_from: 0,
            } => write!(
                to,
                "the original is edition {edition}, and it is not translated"
            ),
            Refusal::Behind {
                edition,
                translated_from,
            } => write!(
                to,
                "the original is edition {edition}, the translation of edition {translated_from}"
            ),
            Refusal::Other(number) => fmt::Display::fmt(number, to),
        }
    }
}

impl<E: fmt::Display> fmt::Display for Failed<E> {
    fn fmt(&self, to: &mut fmt::Formatter) -> fmt::Result {
        match self {
            Failed::Refused(refusal) => fmt::Display::fmt(refusal, to),
            Failed::Transport(why) => write!(to, "no answer came back: {why}"),
            Failed::NoPair(number) => write!(to, "the desk has no pair to propose: {number}"),
            Failed::Command(why) => fmt::Display::fmt(why, to),
            Failed::OtherCard => to.write_str("the original is of another card"),
        }
    }
}

impl<E: fmt::Debug + fmt::Display> std::error::Error for Failed<E> {}

impl std::error::Error for Refusal {}

/// Why a desk shows no text.
///
/// ```
/// use lupaniele::desk::NotShown;
/// assert_eq!(NotShown::NotRead.to_string(), "it was not read, or was changed since");
/// ```
#[derive(Clone, Copy, Debug, PartialEq, Eq)]
pub enum NotShown {
    /// It was not read here, or the desk has heard that it was changed since.
    NotRead,
    /// Rule 6.2 says no.
    Refused(Number),
}

impl fmt::Display for NotShown {
    fn fmt(&self, to: &mut fmt::Formatter) -> fmt::Result {
        match self {
            NotShown::NotRead => to.write_str("it was not read, or was changed since"),
            NotShown::Refused(number) => fmt::Display::fmt(number, to),
        }
    }
}

impl std::error::Error for NotShown {}
