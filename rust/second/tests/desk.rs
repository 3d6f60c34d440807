//! The text that a desk shows (rules 6.1 to 6.3).

mod common;

use common::*;
use second::{shown, Held};

const HELD: Held = Held {
    original: b"original",
    translation: b"translation",
    original_length: 4,
    translation_length: 5,
    edition: 2,
    translated_from: 2,
};

/// Whether `part` starts where `buffer` starts.
fn is_of(part: &[u8], buffer: &[u8]) -> bool {
    part.as_ptr() == buffer.as_ptr()
}

#[test]
fn the_language_asked_for() {
    let (number, text) = shown(&HELD, ORIGINAL);
    assert_eq!((number, text), (0, &b"orig"[..]));
    assert!(is_of(text, HELD.original));
    let (number, text) = shown(&HELD, TRANSLATION);
    assert_eq!((number, text), (0, &b"trans"[..]));
    assert!(is_of(text, HELD.translation));
}

#[test]
fn lengths_up_to_the_buffer() {
    for (original_length, translation_length) in [(0, 0), (8, 11), (0, 11), (8, 0)] {
        let held = Held {
            original_length,
            translation_length,
            ..HELD
        };
        let (number, text) = shown(&held, ORIGINAL);
        assert_eq!(
            (number, text),
            (0, &b"original"[..original_length as usize])
        );
        let (number, text) = shown(&held, TRANSLATION);
        assert_eq!(
            (number, text),
            (0, &b"translation"[..translation_length as usize])
        );
    }
}

/// Both languages get this number and an empty part of their own buffer.
fn assert_empty(held: Held, number: u8) {
    for (language, buffer) in [(ORIGINAL, held.original), (TRANSLATION, held.translation)] {
        let (found, text) = shown(&held, language);
        assert_eq!((found, text.len()), (number, 0));
        assert!(is_of(text, buffer));
    }
}

#[test]
fn either_length_beyond_its_buffer() {
    for beyond in [9, 12, 1 << 16, 1 << 32, u64::MAX] {
        assert_empty(
            Held {
                original_length: beyond,
                ..HELD
            },
            8,
        );
    }
    for beyond in [12, 1 << 16, 1 << 32 | 1, u64::MAX] {
        assert_empty(
            Held {
                translation_length: beyond,
                ..HELD
            },
            8,
        );
    }
    assert_empty(
        Held {
            original_length: 9,
            translation_length: 12,
            ..HELD
        },
        8,
    );
    assert_empty(
        Held {
            original: b"",
            ..HELD
        },
        8,
    );
    assert_empty(
        Held {
            translation: b"",
            ..HELD
        },
        8,
    );
}

#[test]
fn the_lengths_are_checked_first() {
    assert_empty(
        Held {
            original_length: 9,
            translated_from: 0,
            ..HELD
        },
        8,
    );
    assert_empty(
        Held {
            translation_length: 12,
            translated_from: 1,
            ..HELD
        },
        8,
    );
}

#[test]
fn a_translation_behind() {
    for (edition, translated_from, expected) in [
        (0, 0, 6),
        (1, 0, 6),
        (2, 1, 6),
        (1, 2, 6),
        (1, 1, 0),
        (u16::MAX, u16::MAX, 0),
        (257, 1, 6),
    ] {
        let held = Held {
            edition,
            translated_from,
            ..HELD
        };
        let (number, text) = shown(&held, TRANSLATION);
        assert_eq!(number, expected);
        assert_eq!(text.len(), if expected == 0 { 5 } else { 0 });
        assert!(is_of(text, held.translation));
        assert_eq!(shown(&held, ORIGINAL), (0, &b"orig"[..]));
    }
}

#[test]
fn nothing_held() {
    let held = Held::default();
    assert_eq!(shown(&held, ORIGINAL), (0, &b""[..]));
    assert_eq!(shown(&held, TRANSLATION), (6, &b""[..]));
}
