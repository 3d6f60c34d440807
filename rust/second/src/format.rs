//! The two versions of an image and of the commands for it. Version 1 is that
//! of rules 2.2 to 2.5 and 3.1.

/// A version: where things stand, and how many translations a card has.
#[derive(Clone, Copy, Debug, Default, PartialEq, Eq, Hash)]
pub enum Format {
    /// Version 1: one translation.
    #[default]
    V1,
    /// Version 2: four translations.
    V2,
}

/// The most translations that any version has.
pub const MOST_TRANSLATIONS: usize = 4;

impl Format {
    /// Both versions.
    pub const BOTH: [Format; 2] = [Format::V1, Format::V2];

    /// The other version.
    pub fn other(self) -> Format {
        match self {
            Format::V1 => Format::V2,
            Format::V2 => Format::V1,
        }
    }

    /// The number of this version in a header.
    pub fn version(self) -> u16 {
        match self {
            Format::V1 => 1,
            Format::V2 => 2,
        }
    }

    /// How many translations a card has.
    pub fn translations(self) -> usize {
        match self {
            Format::V1 => 1,
            Format::V2 => MOST_TRANSLATIONS,
        }
    }

    /// How many bodies a card has: the original and its translations.
    pub fn bodies(self) -> usize {
        self.translations().saturating_add(1)
    }

    /// The bytes of one entry.
    pub fn entry_bytes(self) -> usize {
        match self {
            Format::V1 => 32,
            Format::V2 => 48,
        }
    }

    /// Where an entry holds the original's length.
    pub fn original_length_at(self) -> usize {
        match self {
            Format::V1 => 28,
            Format::V2 => 26,
        }
    }

    /// Where an entry holds translated-from, language after language.
    pub fn translated_from_at(self) -> usize {
        match self {
            Format::V1 => 26,
            Format::V2 => 28,
        }
    }

    /// Where an entry holds the lengths of the translations.
    pub fn translation_length_at(self) -> usize {
        match self {
            Format::V1 => 30,
            Format::V2 => 36,
        }
    }

    /// The bytes of a command before its payload.
    pub fn command_bytes(self) -> usize {
        match self {
            Format::V1 => 52,
            Format::V2 => 68,
        }
    }

    /// Where a command holds its update pair, s and then x.
    pub fn update_at(self) -> usize {
        match self {
            Format::V1 => 20,
            Format::V2 => 52,
        }
    }
}
