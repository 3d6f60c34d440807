//! The limits of an image, soundness point by point, and making a fresh image
//! (rules 2.2 to 2.7).

mod common;

use common::*;
use second::generate::beyond;
use second::{is_sound, make_fresh, Entry, Layout, Mark, Pair};

/// Whether N and C keep the rules, written out once more.
fn allowed(cards: u128, room: u128) -> bool {
    (1..=128).contains(&cards)
        && (16..=1_024).contains(&room)
        && room.is_multiple_of(16)
        && 16 + 32 * cards + 2 * room * cards <= 65_536
}

/// Asks for a fresh image in a buffer of this length, filled with 0xee, and
/// checks that 14 writes nothing and 0 writes a fresh image.
fn made(cards: u64, room: u64, length: usize) -> u8 {
    let mut image = vec![0xee; length];
    let number = make_fresh(&mut image, cards, room);
    match number {
        0 => {
            assert!(is_sound(&image));
            assert!(image[16..].iter().all(|&byte| byte == 0));
        }
        _ => assert!(image.iter().all(|&byte| byte == 0xee)),
    }
    number
}

fn size(cards: u64, room: u64) -> usize {
    (16 + 32 * cards + 2 * room * cards) as usize
}

#[test]
fn the_number_of_cards() {
    for (cards, expected) in [
        (0, 14),
        (1, 0),
        (2, 0),
        (64, 0),
        (65, 0),
        (127, 0),
        (128, 0),
        (129, 14),
        (256, 14),
    ] {
        assert_eq!(made(cards, 16, size(cards, 16)), expected);
    }
}

#[test]
fn the_room() {
    for (room, expected) in [
        (0, 14),
        (8, 14),
        (15, 14),
        (16, 0),
        (17, 14),
        (24, 14),
        (31, 14),
        (32, 0),
        (1_008, 0),
        (1_016, 14),
        (1_023, 14),
        (1_024, 0),
        (1_025, 14),
        (1_040, 14),
    ] {
        assert_eq!(made(1, room, size(1, room)), expected, "room {room}");
    }
}

#[test]
fn the_size_limit() {
    for (cards, room, bytes, expected) in [
        (16, 1_024, 33_296, 0),
        (31, 1_024, 64_496, 0),
        (32, 1_024, 66_576, 14),
        (62, 512, 65_488, 0),
        (66, 480, 65_488, 0),
        (89, 352, 65_520, 0),
        (128, 240, 65_552, 14),
        (64, 496, 65_552, 14),
        (32, 1_008, 65_552, 14),
        (128, 224, 61_456, 0),
        (127, 240, 65_040, 0),
    ] {
        assert_eq!(size(cards, room), bytes);
        assert_eq!(
            made(cards, room, bytes),
            expected,
            "{cards} cards of {room}"
        );
    }
}

#[test]
fn the_lent_length() {
    for (cards, room) in [(1, 16), (128, 16), (31, 1_024), (89, 352)] {
        let right = size(cards, room);
        assert_eq!(made(cards, room, right), 0);
        for wrong in [
            0,
            1,
            15,
            16,
            right - 1,
            right + 1,
            right * 2,
            32_768,
            65_536,
        ] {
            assert_eq!(made(cards, room, wrong), 14);
        }
    }
}

#[test]
fn numbers_that_do_not_fit() {
    let wide = [1 << 16, 1 << 32, 1 << 48, 1 << 63];
    for high in wide {
        assert_eq!(made(high + 1, 16, size(1, 16)), 14);
        assert_eq!(made(1, high + 16, size(1, 16)), 14);
        assert_eq!(made(high + 1, high + 16, size(1, 16)), 14);
    }
    assert_eq!(made(u64::MAX, u64::MAX, 80), 14);
    assert_eq!(made(0, u64::MAX, 16), 14);
    assert_eq!(made(u64::MAX, 0, 16), 14);
}

#[test]
fn every_number_of_cards_and_room_near_the_limits() {
    let mut largest = 0;
    for cards in 0..=260 {
        for room in 0..=1_056 {
            let found = Layout::new(V1, cards, room);
            assert_eq!(found.is_some(), allowed(cards.into(), room.into()));
            if let Some(layout) = found {
                assert_eq!(layout.size(), size(cards, room));
                largest = largest.max(layout.size());
                assert_eq!(
                    (layout.cards(), layout.room()),
                    (cards as usize, room as usize)
                );
            }
        }
    }
    assert_eq!(largest, 65_520);
}

#[test]
fn a_header_that_breaks_the_rules_is_not_sound_at_any_length() {
    for (cards, room) in beyond(V1) {
        let mut image = vec![0; size(cards, room)];
        image[..6].copy_from_slice(&[0x52, 0x43, 0x31, 0, 1, 0]);
        image[6..8].copy_from_slice(&(cards as u16).to_le_bytes());
        image[8..10].copy_from_slice(&(room as u16).to_le_bytes());
        assert!(!is_sound(&image), "{cards} cards of {room}");
        assert!(!is_sound(&image[..16]));
    }
}

#[test]
fn a_fresh_image_to_the_byte() {
    let mut image = vec![0xee; 16 + 2 * 32 + 2 * 2 * 272];
    assert_eq!(make_fresh(&mut image, 2, 272), 0);
    let header = [0x52, 0x43, 0x31, 0, 1, 0, 2, 0, 0x10, 1, 0, 0, 0, 0, 0, 0];
    assert_eq!(image[..16], header);
    assert_eq!(image[16..], vec![0; image.len() - 16]);
}

/// Three cards of room 32: one fresh, one full, one behind.
fn sound() -> Vec<u8> {
    let mut image = fresh(3, 32);
    let full = Entry {
        pair: Pair::new(at(3, 1), at(2, 9)),
        mark: Mark::new(4, 5),
        ..entry(6, 6)
    };
    put_card(&mut image, 1, full, &[b'o'; 32], &[b't'; 32]);
    let behind = Entry {
        pair: Pair::new(0, at(0, 1)),
        ..entry(65_535, 3)
    };
    put_card(&mut image, 2, behind, b"original", b"old");
    assert!(is_sound(&image));
    image
}

/// Whether the image stays sound when these bytes are put there; the answer
/// to a command must agree.
fn sound_with(at: usize, bytes: &[u8]) -> bool {
    let mut image = sound();
    image[at..at + bytes.len()].copy_from_slice(bytes);
    let number = number_on(&image, &command(VERIFY, SHARED, Pair::new(at_9(), at_9())));
    assert_eq!(number == 9, !is_sound(&image));
    is_sound(&image)
}

fn at_9() -> u64 {
    at(9, 9)
}

/// Where a field of a card's entry stands.
fn field(card: usize, offset: usize) -> usize {
    16 + 32 * card + offset
}

/// Where a byte of a card's original (0) or translation (1) stands.
fn body(card: usize, language: usize, offset: usize) -> usize {
    16 + 32 * 3 + 64 * card + 32 * language + offset
}

#[test]
fn every_byte_of_the_header() {
    for place in 0..16 {
        for bit in 0..8 {
            let byte = sound()[place] ^ 1 << bit;
            assert!(!sound_with(place, &[byte]), "byte {place} bit {bit}");
        }
    }
}

#[test]
fn the_length_is_exact() {
    let image = sound();
    for length in 0..image.len() {
        assert!(!is_sound(&image[..length]));
    }
    for more in [1, 16, 32, 96, 40_000] {
        let mut longer = image.clone();
        longer.resize(image.len() + more, 0);
        assert!(!is_sound(&longer));
    }
}

#[test]
fn stamps_are_valid() {
    for card in 0..3 {
        for offset in [0, 8] {
            let place = field(card, offset);
            for good in [0, 1 << 16, 1 << 16 | 1, u64::MAX, 1 << 31, at(1, 1)] {
                assert!(sound_with(place, &good.to_le_bytes()), "{good:x}");
            }
            for bad in [1, 0xffff, 1 << 32, 1 << 63, 0xffff_ffff_0000_ffff] {
                assert!(!sound_with(place, &u64::to_le_bytes(bad)), "{bad:x}");
            }
        }
    }
}

#[test]
fn the_mark_is_both_zero_or_both_not() {
    for card in 0..3 {
        for (desk, transaction) in [(0, 0), (1, 1), (u16::MAX, 1 << 31), (1 << 15, 1 << 16)] {
            assert!(sound_with(field(card, 16), &mark_bytes(desk, transaction)));
        }
        for (desk, transaction) in [(0, 1), (1, 0), (1 << 15, 0), (0, 1 << 31), (0, 1 << 16)] {
            assert!(!sound_with(field(card, 16), &mark_bytes(desk, transaction)));
        }
    }
}

/// Commit desk, the zero and the transaction.
fn mark_bytes(desk: u16, transaction: u32) -> [u8; 8] {
    let mut bytes = [0; 8];
    bytes[..2].copy_from_slice(&desk.to_le_bytes());
    bytes[4..].copy_from_slice(&transaction.to_le_bytes());
    bytes
}

#[test]
fn the_zero_at_18() {
    for card in 0..3 {
        for (place, byte) in [(18, 1), (18, 0x80), (19, 1), (19, 0x80)] {
            assert!(!sound_with(field(card, place), &[byte]));
        }
    }
}

#[test]
fn lengths_are_at_most_c() {
    for offset in [28, 30] {
        assert!(sound_with(field(1, offset), &[32, 0]));
        for bad in [33_u16, 64, 255, 256, 0x8000, u16::MAX] {
            assert!(!sound_with(field(1, offset), &bad.to_le_bytes()));
        }
    }
}

#[test]
fn translated_from_is_at_most_the_edition() {
    for (edition, translated_from, expected) in [
        (6_u16, 6_u16, true),
        (6, 5, true),
        (6, 1, true),
        (6, 7, false),
        (5, 6, false),
        (6, 262, false),
        (262, 6, true),
        (65_535, 65_535, true),
        (1, 65_535, false),
    ] {
        let mut bytes = edition.to_le_bytes().to_vec();
        bytes.extend(translated_from.to_le_bytes());
        assert_eq!(sound_with(field(1, 24), &bytes), expected);
    }
}

/// A card with these four numbers and bodies of ones as long as they say.
fn lengths(edition: u16, translated_from: u16, original: usize, translation: usize) -> bool {
    let (original, translation) = (vec![1; original], vec![1; translation]);
    let image = one_card(entry(edition, translated_from), &original, &translation);
    is_sound(&image)
}

#[test]
fn edition_0_has_length_0() {
    assert!(lengths(0, 0, 0, 0));
    assert!(!lengths(0, 0, 1, 0));
    assert!(!lengths(0, 0, 16, 0));
    assert!(lengths(1, 0, 1, 0));
    assert!(lengths(1, 0, 0, 0));
}

#[test]
fn translated_from_0_has_translation_length_0() {
    assert!(!lengths(1, 0, 1, 1));
    assert!(!lengths(1, 0, 0, 16));
    assert!(!lengths(0, 0, 0, 1));
    assert!(!lengths(0, 1, 0, 1));
    assert!(lengths(1, 1, 0, 1));
    assert!(lengths(1, 1, 1, 0));
}

#[test]
fn body_bytes_past_the_length_are_zero() {
    // Card 0 is empty, card 1 full, card 2 has 8 and 3 bytes.
    for (card, language, length) in [
        (0, 0, 0),
        (0, 1, 0),
        (1, 0, 32),
        (1, 1, 32),
        (2, 0, 8),
        (2, 1, 3),
    ] {
        for offset in 0..32 {
            let place = body(card, language, offset);
            for byte in [1, 0x80, 0xff] {
                assert_eq!(sound_with(place, &[byte]), offset < length);
            }
        }
    }
}

#[test]
fn an_unsound_card_among_sound_ones() {
    for card in 0..128 {
        let mut image = fresh(128, 16);
        image[16 + 32 * card + 18] = 1;
        assert!(!is_sound(&image));
        let mut image = fresh(128, 16);
        image[16 + 32 * 128 + 32 * card + 31] = 1;
        assert!(!is_sound(&image));
    }
}

#[test]
fn an_entry_to_the_byte() {
    let mut entry = Entry {
        pair: Pair::new(0x0807_0605_0403_0201, 0x1817_1615_1413_1211),
        mark: Mark::new(0x2221, 0x3433_3231),
        original_length: 0x6261,
        ..common::entry(0x4241, 0x5251)
    };
    entry.translations[0].length = 0x7271;
    let bytes = [
        0x01, 0x02, 0x03, 0x04, 0x05, 0x06, 0x07, 0x08, 0x11, 0x12, 0x13, 0x14, 0x15, 0x16, 0x17,
        0x18, 0x21, 0x22, 0, 0, 0x31, 0x32, 0x33, 0x34, 0x41, 0x42, 0x51, 0x52, 0x61, 0x62, 0x71,
        0x72,
    ];
    assert_eq!(entry.to_bytes(V1), bytes);
    assert_eq!(Entry::from_bytes(V1, &bytes), Some(entry));
    assert_eq!(Entry::from_bytes(V1, &bytes[..31]), None);
}
