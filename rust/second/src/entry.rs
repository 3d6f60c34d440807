//! A card's entry: its fields (rule 2.4), and its bytes, 32 in version 1 and 48
//! in version 2.

use crate::endian::{put, u16_at, u32_at, u64_at};
use crate::format::{Format, MOST_TRANSLATIONS};
use crate::language::Language;
use crate::stamp::{Mark, Pair};

/// What an entry says of one translation.
#[derive(Clone, Copy, Debug, Default, PartialEq, Eq, Hash)]
pub struct Translation {
    /// Translated-from: the edition whose translation it is.
    pub from: u16,
    /// Its length.
    pub length: u16,
}

/// The fields of a card's entry.
#[derive(Clone, Copy, Debug, Default, PartialEq, Eq, Hash)]
pub struct Entry {
    /// The stored s and x.
    pub pair: Pair,
    /// The stored commit mark.
    pub mark: Mark,
    /// The edition of the original.
    pub edition: u16,
    /// The length of the original.
    pub original_length: u16,
    /// Its translations; those that a version does not have stay zero.
    pub translations: [Translation; MOST_TRANSLATIONS],
}

impl Entry {
    /// Reads an entry; none if these are not as many bytes as the version
    /// asks for, or a byte that is to be zero is not.
    pub fn from_bytes(format: Format, bytes: &[u8]) -> Option<Entry> {
        if bytes.len() != format.entry_bytes() || u16_at(bytes, 18)? != 0 {
            return None;
        }
        // Version 2 ends with four zeros.
        if format == Format::V2 && u32_at(bytes, 44)? != 0 {
            return None;
        }
        let mut translations = [Translation::default(); MOST_TRANSLATIONS];
        let each = translations.iter_mut().take(format.translations());
        for (translation, offset) in each.zip((0..).step_by(2)) {
            translation.from = u16_at(bytes, format.translated_from_at().checked_add(offset)?)?;
            translation.length =
                u16_at(bytes, format.translation_length_at().checked_add(offset)?)?;
        }
        Some(Entry {
            pair: Pair::new(u64_at(bytes, 0)?, u64_at(bytes, 8)?),
            mark: Mark::new(u16_at(bytes, 16)?, u32_at(bytes, 20)?),
            edition: u16_at(bytes, 24)?,
            original_length: u16_at(bytes, format.original_length_at())?,
            translations,
        })
    }

    /// The bytes of this entry in a version.
    pub fn to_bytes(self, format: Format) -> Vec<u8> {
        let mut bytes = vec![0; format.entry_bytes()];
        put(&mut bytes, 0, &self.pair.s.to_le_bytes());
        put(&mut bytes, 8, &self.pair.x.to_le_bytes());
        put(&mut bytes, 16, &self.mark.desk.to_le_bytes());
        put(&mut bytes, 20, &self.mark.transaction.to_le_bytes());
        put(&mut bytes, 24, &self.edition.to_le_bytes());
        let original = self.original_length.to_le_bytes();
        put(&mut bytes, format.original_length_at(), &original);
        let each = self.translations.iter().take(format.translations());
        let froms: Vec<u8> = each
            .clone()
            .flat_map(|one| one.from.to_le_bytes())
            .collect();
        let lengths: Vec<u8> = each.flat_map(|one| one.length.to_le_bytes()).collect();
        put(&mut bytes, format.translated_from_at(), &froms);
        put(&mut bytes, format.translation_length_at(), &lengths);
        bytes
    }

    /// What it says of the translation into this language.
    pub fn translation(self, language: u8) -> Translation {
        let found = self.translations.get(usize::from(language));
        found.copied().unwrap_or_default()
    }

    /// The length of the text in this language.
    pub fn length(self, language: Language) -> u16 {
        match language {
            Language::Original => self.original_length,
            Language::Translation(language) => self.translation(language).length,
        }
    }

    /// Whether the fields keep the rules of a sound image with room `room`.
    pub fn is_sound(self, room: usize) -> bool {
        self.pair.is_valid()
            && self.mark.is_valid()
            && usize::from(self.original_length) <= room
            && (self.edition != 0 || self.original_length == 0)
            && self.translations.iter().all(|translation| {
                usize::from(translation.length) <= room
                    && translation.from <= self.edition
                    && (translation.from != 0 || translation.length == 0)
            })
    }
}
