//! The text that a desk shows (rules 6.1 to 6.3).

use crate::language::Language;
use crate::number::{ACCEPTED, BEHIND, BUFFER_SHORT};

/// What a desk holds of a card (rule 6.1); any values at all.
#[derive(Clone, Copy, Debug, Default, PartialEq, Eq, Hash)]
pub struct Held<'a> {
    /// The buffer with the original.
    pub original: &'a [u8],
    /// The buffer with the translation.
    pub translation: &'a [u8],
    /// The length of the original.
    pub original_length: u64,
    /// The length of the translation.
    pub translation_length: u64,
    /// The edition.
    pub edition: u16,
    /// Translated-from.
    pub translated_from: u16,
}

/// The number 0, 6 or 8, and the first bytes of the buffer asked for: the
/// shown text for 0, none for 6 and 8.
pub fn shown<'a>(held: &Held<'a>, language: Language) -> (u8, &'a [u8]) {
    let original = prefix(held.original, held.original_length);
    let translation = prefix(held.translation, held.translation_length);
    let asked_for = match language {
        Language::Original => held.original,
        Language::Translation(_) => held.translation,
    };
    let none = asked_for.get(..0).unwrap_or_default();
    let (Some(original), Some(translation)) = (original, translation) else {
        return (BUFFER_SHORT, none);
    };
    match language {
        Language::Original => (ACCEPTED, original),
        Language::Translation(_) if is_behind(held) => (BEHIND, none),
        Language::Translation(_) => (ACCEPTED, translation),
    }
}

/// Whether the translation that the desk holds is behind (rule 4.6).
fn is_behind(held: &Held) -> bool {
    held.translated_from == 0 || held.translated_from != held.edition
}

/// The first bytes of a buffer, or none if the length is beyond it.
fn prefix(buffer: &[u8], length: u64) -> Option<&[u8]> {
    buffer.get(..usize::try_from(length).ok()?)
}
