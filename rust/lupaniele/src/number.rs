use std::fmt;

use crate::number_table::{NUMBERS, Row};

/// The number of an answer (rule 5.1): [`Accepted`](Number::Accepted), or why not. What it means, which rule says so
/// and what a desk may do now come with it in words.
///
/// ```
/// use lupaniele::Number;
///
/// let number = Number::Stale;
/// assert_eq!(number.name(), "stale");
/// assert_eq!(number.rule(), "4.2");
/// assert_eq!(u8::from(number), 3);
/// assert_eq!(Number::try_from(27), Err(27));
/// println!("{number}: {} {}", number.meaning(), number.advice());
/// ```
#[derive(Clone, Copy, Debug, PartialEq, Eq, PartialOrd, Ord, Hash)]
#[repr(u8)]
pub enum Number {
    /// 0: done, or accepted.
    Accepted,
    /// 1: malformed.
    Malformed,
    /// 2: the image has no such card.
    NoCard,
    /// 3: stale.
    Stale,
    /// 4: the commit mark does not pass.
    MarkDiffers,
    /// 5: the text is longer than the room.
    PayloadLong,
    /// 6: the translation is behind, or the named edition is not the stored one.
    EditionWrong,
    /// 7: the original has no edition left.
    EditionsSpent,
    /// 8: the buffer is too short.
    ReplyShort,
    /// 9: the image is not sound.
    Unsound,
    /// 10: the queue is bad.
    BadQueue,
    /// 11: denied.
    PairDenied,
    /// 12: the desk stands already.
    StandsAlready,
    /// 13: the queue is full.
    QueueFull,
    /// 14: no such image can be made.
    NotMade,
    /// 15: the desk does not stand.
    NotStanding,
    /// 16: the desk has no stamp left.
    NoStampLeft,
    /// 17: from too far ahead.
    TooFar,
    /// 18: the first text is ill formed.
    FirstIll,
    /// 19: the second text is ill formed.
    SecondIll,
    /// 20: the texts differ.
    Unmatched,
    /// 21: the lease term or a time is out of range.
    LeaseOutOfRange,
    /// 22: the history is full.
    HistoryFull,
    /// 23: the log is bad, or the record is.
    BadLog,
    /// 24: the log is full.
    LogFull,
    /// 25: the lease still runs.
    LeaseRuns,
    /// 26: the append was cut.
    AppendCut,
}

impl Number {
    /// Every number, in order.
    ///
    /// ```
    /// use lupaniele::Number;
    /// for number in Number::ALL {
    ///     println!("{:2} {}", u8::from(number), number.name());
    /// }
    /// ```
    pub const ALL: [Number; 27] = [
        Number::Accepted,
        Number::Malformed,
        Number::NoCard,
        Number::Stale,
        Number::MarkDiffers,
        Number::PayloadLong,
        Number::EditionWrong,
        Number::EditionsSpent,
        Number::ReplyShort,
        Number::Unsound,
        Number::BadQueue,
        Number::PairDenied,
        Number::StandsAlready,
        Number::QueueFull,
        Number::NotMade,
        Number::NotStanding,
        Number::NoStampLeft,
        Number::TooFar,
        Number::FirstIll,
        Number::SecondIll,
        Number::Unmatched,
        Number::LeaseOutOfRange,
        Number::HistoryFull,
        Number::BadLog,
        Number::LogFull,
        Number::LeaseRuns,
        Number::AppendCut,
    ];

    /// The number that an exported function gave. Each gives one of the list: that is proved, and the other arm is
    /// never taken.
    pub(crate) fn given(number: u8) -> Number {
        debug_assert!(usize::from(number) < Number::ALL.len());
        Number::try_from(number).unwrap_or(Number::Unsound)
    }

    /// Nothing if accepted, else the number as an error.
    ///
    /// ```
    /// use lupaniele::Number;
    /// assert_eq!(Number::Accepted.done(), Ok(()));
    /// assert_eq!(Number::LogFull.done(), Err(Number::LogFull));
    /// ```
    pub fn done(self) -> Result<(), Number> {
        match self {
            Number::Accepted => Ok(()),
            refused => Err(refused),
        }
    }

    fn row(self) -> &'static Row {
        &NUMBERS[self as usize]
    }

    /// Its name, in a few words.
    ///
    /// ```
    /// assert_eq!(lupaniele::Number::TooFar.name(), "from too far ahead");
    /// ```
    #[must_use]
    pub fn name(self) -> &'static str {
        self.row().name
    }

    /// What it means, in a sentence.
    ///
    /// ```
    /// assert_eq!(lupaniele::Number::Accepted.meaning(), "What was asked for is done.");
    /// ```
    #[must_use]
    pub fn meaning(self) -> &'static str {
        self.row().meaning
    }

    /// The rule of docs/RULES.md that says when it is given.
    ///
    /// ```
    /// assert_eq!(lupaniele::Number::NoStampLeft.rule(), "10.6");
    /// ```
    #[must_use]
    pub fn rule(self) -> &'static str {
        self.row().rule
    }

    /// What a desk that gets it may do now, in a sentence.
    ///
    /// ```
    /// assert!(lupaniele::Number::EditionWrong.advice().starts_with("Show no translation"));
    /// ```
    #[must_use]
    pub fn advice(self) -> &'static str {
        self.row().advice
    }

    /// The name of its constant in C, without the prefix, and in the sources.
    ///
    /// ```
    /// assert_eq!(lupaniele::Number::AppendCut.constant(), "APPEND_CUT");
    /// ```
    #[must_use]
    pub fn constant(self) -> &'static str {
        self.row().constant
    }
}

impl TryFrom<u8> for Number {
    /// What is no number of the list.
    type Error = u8;

    fn try_from(number: u8) -> Result<Number, u8> {
        Number::ALL.get(usize::from(number)).copied().ok_or(number)
    }
}

impl From<Number> for u8 {
    fn from(number: Number) -> u8 {
        number as u8
    }
}

impl fmt::Display for Number {
    fn fmt(&self, to: &mut fmt::Formatter) -> fmt::Result {
        to.pad(self.name())
    }
}

impl std::error::Error for Number {}

#[cfg(test)]
mod tests {
    use super::*;

    /// `MarkDiffers` as `MARK_DIFFERS`.
    fn constant_of(number: Number) -> String {
        let mut constant = String::new();
        for (at, letter) in format!("{number:?}").char_indices() {
            if at > 0 && letter.is_ascii_uppercase() {
                constant.push('_');
            }
            constant.push(letter.to_ascii_uppercase());
        }
        constant
    }

    #[test]
    fn names_are_those_of_the_list() {
        for (at, number) in Number::ALL.into_iter().enumerate() {
            assert_eq!(usize::from(u8::from(number)), at);
            assert_eq!(constant_of(number), number.constant());
        }
    }
}
