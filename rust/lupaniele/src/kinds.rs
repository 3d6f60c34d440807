use std::fmt;

/// The version of an image and of its commands: 1 has one translation of each card, 2 has four (rule 15.1).
///
/// ```
/// use lupaniele::{Language, Version};
/// assert_eq!(Version::One.languages(), [Language::First]);
/// assert_eq!(Version::Two.languages(), Language::ALL);
/// ```
#[derive(Clone, Copy, Debug, PartialEq, Eq, PartialOrd, Ord, Hash)]
pub enum Version {
    /// Version 1: an original and one translation.
    One = 1,
    /// Version 2: an original and four translations.
    Two = 2,
}

impl Version {
    /// The languages that a card has a translation in.
    ///
    /// ```
    /// use lupaniele::Version;
    /// assert_eq!(Version::Two.languages().len(), 4);
    /// ```
    #[must_use]
    pub const fn languages(self) -> &'static [Language] {
        match self {
            Version::One => &[Language::First],
            Version::Two => &Language::ALL,
        }
    }

    /// The bytes of a command in front of its payload (rules 3.1 and 15.6).
    pub(crate) const fn command_bytes(self) -> usize {
        match self {
            Version::One => 52,
            Version::Two => 68,
        }
    }

    /// The bytes of an entry (rules 2.4 and 15.3).
    pub(crate) const fn entry_bytes(self) -> usize {
        match self {
            Version::One => 32,
            Version::Two => 48,
        }
    }

    /// The bytes of an image of so many cards with this room (rules 2.2 and 15.2), whether one can be made or not; no
    /// number where it is too large to count.
    ///
    /// ```
    /// use lupaniele::Version;
    /// assert_eq!(Version::One.image_bytes(31, 1024), Some(64_496));
    /// assert_eq!(Version::Two.image_bytes(1, 16), Some(144));
    /// ```
    #[must_use]
    pub const fn image_bytes(self, cards: usize, room: usize) -> Option<usize> {
        let bodies = 1 + self.languages().len();
        let Some(texts) = room.checked_mul(bodies) else {
            return None;
        };
        let Some(card) = texts.checked_add(self.entry_bytes()) else {
            return None;
        };
        match card.checked_mul(cards) {
            Some(all) => all.checked_add(16),
            None => None,
        }
    }
}

impl fmt::Display for Version {
    fn fmt(&self, to: &mut fmt::Formatter) -> fmt::Result {
        write!(to, "version {}", *self as u8)
    }
}

/// A mode: shared or exclusive (rule 1.4).
///
/// ```
/// use lupaniele::Mode;
/// assert_eq!(Mode::Exclusive.number(), 2);
/// assert_eq!(Mode::from_number(1), Some(Mode::Shared));
/// assert_eq!(Mode::from_number(3), None);
/// ```
#[derive(Clone, Copy, Debug, PartialEq, Eq, PartialOrd, Ord, Hash)]
pub enum Mode {
    /// Beside other shared ones.
    Shared = 1,
    /// Alone.
    Exclusive = 2,
}

impl Mode {
    /// Its number.
    ///
    /// ```
    /// assert_eq!(lupaniele::Mode::Shared.number(), 1);
    /// ```
    #[must_use]
    pub const fn number(self) -> u8 {
        self as u8
    }

    /// The mode with this number.
    ///
    /// ```
    /// use lupaniele::Mode;
    /// assert_eq!(Mode::from_number(2), Some(Mode::Exclusive));
    /// ```
    #[must_use]
    pub const fn from_number(number: u8) -> Option<Mode> {
        match number {
            1 => Some(Mode::Shared),
            2 => Some(Mode::Exclusive),
            _ => None,
        }
    }
}

impl fmt::Display for Mode {
    fn fmt(&self, to: &mut fmt::Formatter) -> fmt::Result {
        to.pad(match self {
            Mode::Shared => "shared",
            Mode::Exclusive => "exclusive",
        })
    }
}

/// What a command does (rule 3.2).
///
/// ```
/// use lupaniele::Act;
/// assert_eq!(Act::from_number(4), Some(Act::WriteTranslation));
/// assert_eq!(Act::WriteTranslation.to_string(), "write translation");
/// assert_eq!(Act::Verify.number(), 5);
/// ```
#[derive(Clone, Copy, Debug, PartialEq, Eq, PartialOrd, Ord, Hash)]
pub enum Act {
    /// Reads the original.
    ReadOriginal = 1,
    /// Reads a translation.
    ReadTranslation = 2,
    /// Writes the original.
    WriteOriginal = 3,
    /// Writes a translation.
    WriteTranslation = 4,
    /// Carries its stamps and does nothing else.
    Verify = 5,
}

impl Act {
    /// Every act, in order.
    ///
    /// ```
    /// use lupaniele::Act;
    /// assert_eq!(Act::ALL.map(Act::number), [1, 2, 3, 4, 5]);
    /// ```
    pub const ALL: [Act; 5] = [
        Act::ReadOriginal,
        Act::ReadTranslation,
        Act::WriteOriginal,
        Act::WriteTranslation,
        Act::Verify,
    ];

    /// Its number.
    ///
    /// ```
    /// assert_eq!(lupaniele::Act::ReadOriginal.number(), 1);
    /// ```
    #[must_use]
    pub const fn number(self) -> u8 {
        self as u8
    }

    /// The act with this number.
    ///
    /// ```
    /// use lupaniele::Act;
    /// assert_eq!((Act::from_number(5), Act::from_number(6)), (Some(Act::Verify), None));
    /// ```
    #[must_use]
    pub fn from_number(number: u8) -> Option<Act> {
        Act::ALL.into_iter().find(|act| act.number() == number)
    }
}

impl fmt::Display for Act {
    fn fmt(&self, to: &mut fmt::Formatter) -> fmt::Result {
        to.pad(match self {
            Act::ReadOriginal => "read original",
            Act::ReadTranslation => "read translation",
            Act::WriteOriginal => "write original",
            Act::WriteTranslation => "write translation",
            Act::Verify => "verify",
        })
    }
}

/// One of the four languages of translations, 0 to 3 (rule 15.1). Version 1 has the first alone.
///
/// ```
/// use lupaniele::Language;
/// assert_eq!(Language::from_number(3), Some(Language::Fourth));
/// assert_eq!(Language::from_number(4), None);
/// assert_eq!(Language::default(), Language::First);
/// ```
#[derive(Clone, Copy, Debug, Default, PartialEq, Eq, PartialOrd, Ord, Hash)]
pub enum Language {
    /// Language 0, the one translation of version 1.
    #[default]
    First = 0,
    /// Language 1.
    Second = 1,
    /// Language 2.
    Third = 2,
    /// Language 3.
    Fourth = 3,
}

impl Language {
    /// All four, in order.
    ///
    /// ```
    /// use lupaniele::Language;
    /// assert_eq!(Language::ALL.map(Language::number), [0, 1, 2, 3]);
    /// ```
    pub const ALL: [Language; 4] = [
        Language::First,
        Language::Second,
        Language::Third,
        Language::Fourth,
    ];

    /// Its number, 0 to 3.
    ///
    /// ```
    /// assert_eq!(lupaniele::Language::Fourth.number(), 3);
    /// ```
    #[must_use]
    pub const fn number(self) -> u8 {
        self as u8
    }

    /// The language with this number.
    ///
    /// ```
    /// use lupaniele::Language;
    /// assert_eq!(Language::from_number(0), Some(Language::First));
    /// ```
    #[must_use]
    pub fn from_number(number: u8) -> Option<Language> {
        Language::ALL.get(usize::from(number)).copied()
    }
}

impl fmt::Display for Language {
    fn fmt(&self, to: &mut fmt::Formatter) -> fmt::Result {
        write!(to, "language {}", self.number())
    }
}
