//! Texts that tell what they were made from.

/// How many bytes of a text are kept when a sign is put behind it; with a letter in front its translation fills the room.
pub const EDITED: usize = 14;

/// The translation of a text into a language, which its first letter tells.
pub fn translated(language: u8, text: &[u8]) -> Vec<u8> {
    [&[b'T' + language], text].concat()
}

/// The text with a sign behind it.
pub fn edited(text: &[u8]) -> Vec<u8> {
    [&text[..text.len().min(EDITED)], b"+"].concat()
}

/// What a text with a sign behind it was made from, of a text that stands.
pub fn made_from<'a>(text: &'a [u8], before: &'a [u8]) -> Option<(&'a [u8], &'a [u8])> {
    match text.split_last() {
        Some((b'+', made_from)) => Some((made_from, &before[..before.len().min(EDITED)])),
        _ => None,
    }
}
