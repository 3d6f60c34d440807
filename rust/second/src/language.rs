//! The texts of a card: its original and its translations (rule 2.1).

/// Which of a card's texts is meant.
#[derive(Clone, Copy, Debug, PartialEq, Eq, Hash)]
pub enum Language {
    /// The original.
    Original,
    /// The translation into one language, from 0. Version 1 has language 0
    /// alone.
    Translation(u8),
}
