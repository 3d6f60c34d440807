//! Version 2: images of four translations, commands that name a language, and
//! conversion from version 1. Bytes, numbers and answers are worked out by
//! hand.

mod common;

use common::*;
use second::{
    convert, output, standing_at, stream, walk, Answer, CommandFields, Entry, Layout, Mark, Pair,
    Standing, Translation,
};

/// Answers a command of version 2 with a reply buffer of 16 bytes, and checks
/// what every answer must keep.
fn send(image: &mut [u8], fields: CommandFields, payload: &[u8]) -> Answer {
    check::answer(V2, image, &fields.with_payload(payload), &mut [0xaa; 16])
}

/// Writes the original on card 0.
fn write(image: &mut [u8], text: &[u8]) -> Answer {
    send(
        image,
        into(0, fields(WRITE_ORIGINAL, EXCLUSIVE, a_prime())),
        text,
    )
}

/// Writes the translation into a language on card 0, made from this edition.
fn translate(image: &mut [u8], language: u8, edition: u16, text: &[u8]) -> Answer {
    let fields = fields(WRITE_TRANSLATION, EXCLUSIVE, a_prime());
    send(
        image,
        into(language, CommandFields { edition, ..fields }),
        text,
    )
}

/// Reads the translation into a language on card 0: the number,
/// translated-from, and the text.
fn read(image: &mut [u8], language: u8) -> (u8, u16, Vec<u8>) {
    let command = into(language, fields(READ_TRANSLATION, EXCLUSIVE, a_prime()));
    let mut reply = vec![0xaa; 16];
    let told = check::answer(V2, image, &command.with_payload(&[]), &mut reply);
    reply.truncate(told.fields.length.into());
    (told.number, told.fields.translated_from, reply)
}

#[test]
fn a_fresh_image_to_the_byte() {
    // 16 + 2 * 48 + 2 * 5 * 272.
    let mut image = vec![0xee; 2_832];
    assert_eq!(V2.make_fresh(&mut image, 2, 272), 0);
    let header = [0x52, 0x43, 0x31, 0, 2, 0, 2, 0, 0x10, 1, 0, 0, 0, 0, 0, 0];
    assert_eq!(image[..16], header);
    assert!(image[16..].iter().all(|&byte| byte == 0));
    assert!(V2.is_sound(&image));
    assert!(!V1.is_sound(&image));
}

#[test]
fn sizes_at_the_limit() {
    // N, C, the bytes of the whole, and whether it is made.
    let all = [
        (1, 16, 144, 0),
        (1, 1_024, 5_184, 0),
        (12, 1_024, 62_032, 0),
        (13, 1_024, 67_200, 14),
        (15, 864, 65_536, 0),
        (65, 192, 65_536, 0),
        (32, 400, 65_552, 14),
        (128, 80, 57_360, 0),
        (128, 96, 67_600, 14),
        (129, 16, 16_528, 14),
        (0, 16, 16, 14),
        (1, 24, 184, 14),
        (1, 1_040, 5_264, 14),
        (1, 0, 64, 14),
    ];
    for (cards, room, length, number) in all {
        for (off, wanted) in [(0, number), (1, 14), (-1, 14)] {
            let mut lent = vec![0xee; (length + off) as usize];
            assert_eq!(V2.make_fresh(&mut lent, cards, room), wanted);
            let written = lent.iter().any(|&byte| byte != 0xee);
            assert_eq!(written, wanted == 0, "{cards} cards of {room}");
        }
    }
}

/// An entry of different bytes in each of its fields.
fn full_entry() -> (Entry, [u8; 48]) {
    let translation = |from, length| Translation { from, length };
    let entry = Entry {
        pair: Pair::new(0x0807_0605_0403_0201, 0x1817_1615_1413_1211),
        mark: Mark::new(0x2221, 0x3433_3231),
        edition: 0x4241,
        original_length: 0x5251,
        translations: [
            translation(0x6261, 0x7271),
            translation(0x6463, 0x7473),
            translation(0x6665, 0x7675),
            translation(0x6867, 0x7877),
        ],
    };
    let bytes = [
        0x01, 0x02, 0x03, 0x04, 0x05, 0x06, 0x07, 0x08, 0x11, 0x12, 0x13, 0x14, 0x15, 0x16, 0x17,
        0x18, 0x21, 0x22, 0, 0, 0x31, 0x32, 0x33, 0x34, 0x41, 0x42, 0x51, 0x52, 0x61, 0x62, 0x63,
        0x64, 0x65, 0x66, 0x67, 0x68, 0x71, 0x72, 0x73, 0x74, 0x75, 0x76, 0x77, 0x78, 0, 0, 0, 0,
    ];
    (entry, bytes)
}

#[test]
fn an_entry_to_the_byte() {
    let (entry, bytes) = full_entry();
    assert_eq!(entry.to_bytes(V2), bytes);
    assert_eq!(Entry::from_bytes(V2, &bytes), Some(entry));
    assert_eq!(Entry::from_bytes(V2, &bytes[..47]), None);
    assert_eq!(Entry::from_bytes(V1, &bytes), None);
    for at in [18, 19, 44, 45, 46, 47] {
        let mut broken = bytes;
        broken[at] = 1;
        assert_eq!(Entry::from_bytes(V2, &broken), None, "byte {at}");
    }
}

#[test]
fn a_command_to_the_byte() {
    let fields = CommandFields {
        format: V2,
        act: 4,
        mode: 2,
        card: 0x0807,
        pair: Pair::new(0x1817_1615_1413_1211, 0x2827_2625_2423_2221),
        update: Pair::new(0xb8b7_b6b5_b4b3_b2b1, 0xc8c7_c6c5_c4c3_c2c1),
        language: 3,
        reserved: [0; 15],
        expected: Mark::new(0x4241, 0x5453_5251),
        next: Mark::new(0x6261, 0x7473_7271),
        edition: 0x8281,
        length: 0x0002,
    };
    let bytes = [
        4, 2, 0x07, 0x08, 0x11, 0x12, 0x13, 0x14, 0x15, 0x16, 0x17, 0x18, 0x21, 0x22, 0x23, 0x24,
        0x25, 0x26, 0x27, 0x28, 3, 0, 0, 0, 0, 0, 0, 0, 0, 0, 0, 0, 0, 0, 0, 0, 0x41, 0x42, 0x51,
        0x52, 0x53, 0x54, 0x61, 0x62, 0x71, 0x72, 0x73, 0x74, 0x81, 0x82, 2, 0, 0xb1, 0xb2, 0xb3,
        0xb4, 0xb5, 0xb6, 0xb7, 0xb8, 0xc1, 0xc2, 0xc3, 0xc4, 0xc5, 0xc6, 0xc7, 0xc8, 0xd1, 0xd2,
    ];
    assert_eq!(fields.followed_by(&[0xd1, 0xd2]), bytes);
    assert_eq!(CommandFields::from_bytes(V2, &bytes), Some(fields));
    assert_eq!(CommandFields::from_bytes(V2, &bytes[..67]), None);
}

#[test]
fn each_language_is_written_and_read() {
    let mut image = fresh_of(V2, 2, 16);
    assert_eq!(write(&mut image, b"205").number, 0);
    let texts: [&[u8]; 4] = [b"ABCDEFGHIJKLMNOP", b"", b"deux", b"t"];
    for (language, text) in (0..).zip(texts) {
        assert_eq!(read(&mut image, language), (6, 0, vec![]));
        let told = translate(&mut image, language, 1, text);
        assert_eq!((told.number, told.fields.translated_from), (0, 1));
        assert_eq!(read(&mut image, language), (0, 1, text.to_vec()));
    }
    for (language, text) in (0..).zip(texts) {
        assert_eq!(read(&mut image, language), (0, 1, text.to_vec()));
    }
    // Entry 0 stands at 16, the bodies of card 0 from 16 + 2 * 48 on.
    assert_eq!(
        image[16 + 24..16 + 48],
        [1, 0, 3, 0, 1, 0, 1, 0, 1, 0, 1, 0, 16, 0, 0, 0, 4, 0, 1, 0, 0, 0, 0, 0]
    );
    assert_eq!(image[112..115], *b"205");
    assert_eq!(image[128..144], *b"ABCDEFGHIJKLMNOP");
    assert_eq!(image[160..165], *b"deux\0");
    assert_eq!(image[176..178], *b"t\0");
    assert!(image[192..].iter().all(|&byte| byte == 0));
}

#[test]
fn one_is_behind_while_another_is_not() {
    let mut image = fresh_of(V2, 1, 16);
    write(&mut image, b"one");
    translate(&mut image, 1, 1, b"un");
    translate(&mut image, 2, 1, b"eins");
    write(&mut image, b"two");
    assert_eq!(translate(&mut image, 2, 2, b"zwei").number, 0);
    // What language 1 was made from is its own, and no other's.
    assert_eq!(read(&mut image, 0), (6, 0, vec![]));
    assert_eq!(read(&mut image, 1), (6, 1, vec![]));
    assert_eq!(read(&mut image, 2), (0, 2, b"zwei".to_vec()));
    assert_eq!(read(&mut image, 3), (6, 0, vec![]));
    // A translation of an edition that is no longer stored, and of one to come.
    assert_eq!(translate(&mut image, 1, 1, b"un").number, 6);
    assert_eq!(translate(&mut image, 1, 3, b"trois").number, 6);
    assert_eq!(translate(&mut image, 1, 2, b"deux").number, 0);
    assert_eq!(read(&mut image, 1), (0, 2, b"deux".to_vec()));
    assert_eq!(read(&mut image, 2), (0, 2, b"zwei".to_vec()));
}

#[test]
fn the_original_again_puts_all_four_behind() {
    let mut image = fresh_of(V2, 1, 16);
    write(&mut image, b"205");
    for language in 0..4 {
        translate(&mut image, language, 1, b"401");
        assert_eq!(read(&mut image, language).0, 0);
    }
    // The same bytes again are a new edition all the same.
    write(&mut image, b"205");
    for language in 0..4 {
        assert_eq!(read(&mut image, language), (6, 1, vec![]));
    }
}

#[test]
fn other_acts_reply_language_0() {
    let mut image = fresh_of(V2, 1, 16);
    write(&mut image, b"one");
    translate(&mut image, 0, 1, b"un");
    write(&mut image, b"two");
    translate(&mut image, 3, 2, b"zwei");
    for act in [READ_ORIGINAL, VERIFY] {
        let told = send(&mut image, into(0, fields(act, EXCLUSIVE, a_prime())), b"");
        assert_eq!((told.number, told.fields.edition), (0, 2));
        assert_eq!(told.fields.translated_from, 1);
    }
    assert_eq!(write(&mut image, b"three").fields.translated_from, 1);
    // A refusal too: under a pair that is stale by then.
    let newer = into(0, fields(VERIFY, EXCLUSIVE, b_prime()));
    assert_eq!(send(&mut image, newer, b"").number, 0);
    assert_eq!(write(&mut image, b"four").fields.translated_from, 1);
    let stale = translate(&mut image, 3, 3, b"drei");
    assert_eq!((stale.number, stale.fields.translated_from), (3, 2));
}

/// The number of a command of version 2 on a card with an original and all
/// four translations.
fn number_of(command: &[u8]) -> u8 {
    let mut image = fresh_of(V2, 1, 16);
    write(&mut image, b"205");
    for language in 0..4 {
        translate(&mut image, language, 1, b"401");
    }
    check::answer(V2, &mut image, command, &mut [0xaa; 16]).number
}

#[test]
fn languages_that_are_malformed() {
    for (act, mode) in [(1, 1), (2, 1), (3, 2), (4, 2), (5, 1)] {
        for language in 0..=255 {
            let command = CommandFields {
                edition: u16::from(act == 4),
                ..fields(act, mode, a_prime())
            };
            let names = act == 2 || act == 4;
            let formed = if names { language < 4 } else { language == 0 };
            let number = number_of(&into(language, command).with_payload(b""));
            assert_eq!(number, u8::from(!formed), "act {act}, language {language}");
        }
    }
}

#[test]
fn bytes_21_to_35_are_zero() {
    for (act, mode) in [(1, 1), (2, 1), (3, 2), (4, 2), (5, 1)] {
        let edition = u16::from(act == 4);
        let command = into(0, fields(act, mode, a_prime()));
        let command = CommandFields { edition, ..command }.with_payload(b"");
        assert_eq!(number_of(&command), 0);
        for at in 21..36 {
            for value in [1, 0x80, 0xff] {
                let mut broken = command.clone();
                broken[at] = value;
                assert_eq!(number_of(&broken), 1, "act {act}, byte {at}");
            }
        }
    }
}

#[test]
fn commands_of_another_length() {
    let whole = into(0, fields(VERIFY, SHARED, a_prime())).with_payload(b"");
    assert_eq!(whole.len(), 68);
    assert_eq!(number_of(&whole), 0);
    // A command of version 1 among them, which is 52 bytes long.
    let old = command(VERIFY, SHARED, a_prime());
    assert_eq!(old.len(), 52);
    assert_eq!(number_of(&old), 1);
    for length in 0..68 {
        assert_eq!(number_of(&whole[..length]), 1);
    }
    assert_eq!(number_of(&[&whole[..], &[0]].concat()), 1);
    let written = into(0, fields(WRITE_ORIGINAL, EXCLUSIVE, a_prime())).with_payload(b"205");
    assert_eq!(written.len(), 71);
    assert_eq!(number_of(&written), 0);
    assert_eq!(number_of(&written[..70]), 1);
    // To a store of version 1, 68 bytes of no payload are 16 too many.
    assert_eq!(number(&mut fresh(1, 16), &whole), 1);
    assert_eq!(number(&mut fresh(1, 16), &old), 0);
}

#[test]
fn the_update_pair_stands_at_52() {
    let opens = |mode, verifier, update| CommandFields {
        update,
        ..into(0, fields(VERIFY, mode, verifier))
    };
    let mut image = fresh_of(V2, 1, 16);
    let bytes = opens(EXCLUSIVE, Pair::default(), b_prime()).with_payload(b"");
    assert!(bytes[4..52].iter().all(|&byte| byte == 0));
    assert_eq!(bytes[52..60], at(2, 2).to_le_bytes());
    assert_eq!(bytes[60..68], at(2, 2).to_le_bytes());
    let told = check::answer(V2, &mut image, &bytes, &mut []);
    assert_eq!((told.number, told.fields.pair), (0, b_prime()));
    // The verifier decides: below the stored pair the command is stale, equal
    // to it accepted, and then what is stored is the update pair.
    let third = Pair::new(at(3, 3), at(3, 3));
    let told = send(&mut image, opens(EXCLUSIVE, a_prime(), third), b"");
    assert_eq!((told.number, told.fields.pair), (3, b_prime()));
    let told = send(&mut image, opens(EXCLUSIVE, b_prime(), third), b"");
    assert_eq!((told.number, told.fields.pair), (0, third));
    // Half of it zero, below the verifier, no stamp of the mode's own, no
    // desk.
    for (mode, verifier, update) in [
        (EXCLUSIVE, third, Pair::new(0, at(3, 3))),
        (EXCLUSIVE, third, Pair::new(at(3, 3), at(3, 3) - 1)),
        (SHARED, Pair::default(), Pair::new(0, at(3, 3))),
        (EXCLUSIVE, Pair::default(), Pair::default()),
        (EXCLUSIVE, third, Pair::new(4 << 32, at(3, 3))),
    ] {
        assert_eq!(
            send(&mut image, opens(mode, verifier, update), b"").number,
            1
        );
    }
    // Too far ahead by the update pair.
    let far = Pair::new(at(1_000_004, 3), at(3, 3));
    assert_eq!(
        send(&mut image, opens(EXCLUSIVE, third, far), b"").number,
        17
    );
    let near = Pair::new(at(1_000_003, 3), at(3, 3));
    assert_eq!(
        send(&mut image, opens(EXCLUSIVE, third, near), b"").number,
        0
    );
}

/// An image of one card of edition 2 with room 16, and all four translations.
fn four() -> Vec<u8> {
    let mut image = fresh_of(V2, 1, 16);
    let layout = Layout::of_header(V2, &image).expect("fresh");
    let texts: [&[u8]; 5] = [b"205", b"401", b"", b"0123456789abcdef", b"4"];
    put_texts(layout, &mut image, 0, entry_of(2, [2, 1, 2, 1]), &texts);
    image
}

#[test]
fn soundness_of_each_language() {
    let sound = four();
    assert!(V2.is_sound(&sound));
    let with = |at: usize, value: u16| {
        let mut image = sound.clone();
        image[16 + at..18 + at].copy_from_slice(&value.to_le_bytes());
        V2.is_sound(&image)
    };
    for language in 0..4 {
        let (from, length) = (28 + 2 * language, 36 + 2 * language);
        // Above the edition, and 0 with a text.
        assert!(with(from, 2) && with(from, 1) && !with(from, 3));
        assert_eq!(with(from, 0), language == 1);
        // Longer than the room; shorter leaves a byte past the text.
        assert!(!with(length, 17) && !with(length, 0xffff));
        assert!(with(length, 16));
        assert_eq!(with(length, 0), language == 1);
    }
    // The original's length: at most the room, and none at edition 0.
    assert!(with(26, 16) && !with(26, 17) && !with(26, 2));
    assert!(!with(24, 0) && !with(24, 1) && with(24, 3));
    // The four zeros at 44, and the two at 18.
    for at in [18, 44, 46] {
        assert!(!with(at, 1) && !with(at, 0x100));
    }
    // A byte past each text; bodies begin at 64.
    for (body, length) in [3, 3, 0, 16, 1].into_iter().enumerate() {
        for at in length..16 {
            let mut image = sound.clone();
            image[64 + 16 * body + at] = 1;
            assert!(!V2.is_sound(&image), "body {body}, byte {at}");
        }
    }
}

#[test]
fn edition_0_has_no_texts() {
    let mut image = fresh_of(V2, 1, 16);
    for at in [26, 28, 30, 32, 34, 36, 38, 40, 42] {
        image[16 + at] = 1;
        assert!(!V2.is_sound(&image), "byte {at}");
        image[16 + at] = 0;
    }
    assert!(V2.is_sound(&image));
}

#[test]
fn neither_version_takes_the_other() {
    let (old, new) = (one_card(entry(2, 2), b"205", b"401"), four());
    let (of_old, of_new) = (
        command(READ_ORIGINAL, SHARED, a()),
        into(0, fields(READ_ORIGINAL, SHARED, a())).with_payload(b""),
    );
    for command in [&of_old, &of_new] {
        let mut reply = [0xaa; 16];
        let told = check::answer(V1, &mut new.clone(), command, &mut reply);
        assert_eq!((told.number, told.fields.numbers()), (9, [0; 7]));
        let told = check::answer(V2, &mut old.clone(), command, &mut reply);
        assert_eq!((told.number, told.fields.numbers()), (9, [0; 7]));
        assert_eq!(reply, [0xaa; 16]);
    }
    assert!(V1.is_sound(&old) && !V2.is_sound(&old));
    assert!(V2.is_sound(&new) && !V1.is_sound(&new));
    // The version alone does not make one of the other.
    for (image, version, format) in [(&old, 2, V2), (&new, 1, V1)] {
        let mut image = image.clone();
        image[4] = version;
        assert!(!format.is_sound(&image));
    }
    // The program, with a stream of either version behind the image.
    assert_eq!(output(&new), "bad store\n");
    for command in [&of_old, &of_new] {
        assert_eq!(output(&[&new[..], command].concat()), "bad store\n");
    }
    assert_eq!(output(&old), "cards 1\nend\n");
}

#[test]
fn streams_of_commands_of_68_bytes() {
    let verify = into(0, fields(VERIFY, SHARED, a())).with_payload(b"");
    let write = into(0, fields(WRITE_ORIGINAL, EXCLUSIVE, a_prime())).with_payload(b"205");
    let broken = into(9, fields(VERIFY, SHARED, a())).followed_by(b"");
    let stream = [&verify[..], &write, &broken, &verify[..67]].concat();
    assert_eq!(
        standing_at(V2, &stream, 68),
        Standing::Command {
            bytes: &write,
            next: 139
        }
    );
    let ended = walk(V2, &stream, 0);
    assert_eq!((ended.commands, ended.place, ended.cut), (3, 207, true));
    let ended = walk(V2, &stream[..207], 0);
    assert_eq!((ended.commands, ended.place, ended.cut), (3, 207, false));
    let mut image = fresh_of(V2, 1, 16);
    let (answers, _) = stream::run(V2, &mut image, &stream, &mut []);
    let numbers: Vec<u8> = answers.iter().map(|answer| answer.number).collect();
    assert_eq!(numbers, [0, 0, 1]);
    // By 52 bytes the same stream is cut otherwise.
    assert_eq!(walk(V1, &stream[..68], 0).commands, 1);
    assert_eq!(walk(V1, &stream[..68], 0).place, 52);
}

/// An image of two cards of version 1 with room 16, and its bytes after
/// conversion.
fn converted() -> (Vec<u8>, Vec<u8>) {
    let mut old = fresh(2, 16);
    let first = Entry {
        pair: Pair::new(at(3, 2), at(2, 1)),
        mark: Mark::new(5, 7),
        ..entry(2, 1)
    };
    put_card(&mut old, 0, first, b"205", b"401");
    put_card(&mut old, 1, entry(1, 1), b"0123456789abcdef", b"");
    let mut new = vec![0; 16 + 2 * 48 + 10 * 16];
    new[..10].copy_from_slice(&[0x52, 0x43, 0x31, 0, 2, 0, 2, 0, 16, 0]);
    new[16..24].copy_from_slice(&at(3, 2).to_le_bytes());
    new[24..32].copy_from_slice(&at(2, 1).to_le_bytes());
    (new[32], new[36], new[40], new[42], new[44], new[52]) = (5, 7, 2, 3, 1, 3);
    (new[88], new[90], new[92]) = (1, 16, 1);
    new[112..115].copy_from_slice(b"205");
    new[128..131].copy_from_slice(b"401");
    new[192..208].copy_from_slice(b"0123456789abcdef");
    (old, new)
}

#[test]
fn a_conversion_to_the_byte() {
    let (old, new) = converted();
    assert!(V1.is_sound(&old));
    let mut target = vec![0xee; new.len()];
    assert_eq!(convert(&old, &mut target), 0);
    assert_eq!(target, new);
    assert!(V2.is_sound(&target));
    // The translation is language 0 and behind as before; the others are none.
    let mark = Mark::new(5, 7);
    for (language, from) in [(0, 1), (1, 0), (2, 0), (3, 0)] {
        let read = CommandFields {
            expected: mark,
            next: mark,
            ..fields(READ_TRANSLATION, SHARED, Pair::new(at(3, 2), at(2, 1)))
        };
        let told = send(&mut target, into(language, read), b"");
        assert_eq!((told.number, told.fields.mark), (6, mark));
        assert_eq!(told.fields.translated_from, from);
    }
    let mut read = into(0, fields(READ_TRANSLATION, SHARED, a()));
    read.card = 1;
    assert_eq!(send(&mut target, read, b"").number, 0);
}

#[test]
fn conversions_that_are_refused() {
    let (old, new) = converted();
    let refused = |image: &[u8], length: usize| {
        let mut target = vec![0xee; length];
        let number = convert(image, &mut target);
        assert!(target.iter().all(|&byte| byte == 0xee));
        number
    };
    for length in [0, old.len(), new.len() - 1, new.len() + 1, 65_536] {
        assert_eq!(refused(&old, length), 14);
    }
    // Not sound comes first, whatever the target.
    let mut broken = old.clone();
    broken[16 + 18] = 1;
    for length in [0, new.len() - 1, new.len()] {
        assert_eq!(refused(&broken, length), 9);
        assert_eq!(refused(&new, length), 9);
        assert_eq!(refused(&old[..old.len() - 1], length), 9);
        assert_eq!(refused(b"", length), 9);
    }
    // Sound, but beyond the limit in version 2: 13 cards of 1,024 have 67,200
    // bytes; 15 of 864 have 65,536.
    assert_eq!(refused(&fresh(13, 1_024), 67_200), 14);
    assert_eq!(refused(&fresh(13, 1_024), 65_536), 14);
    let mut target = vec![0xee; 65_536];
    assert_eq!(convert(&fresh(15, 864), &mut target), 0);
    assert_eq!(target, fresh_of(V2, 15, 864));
}
