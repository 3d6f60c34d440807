//! The checks of version 2, conversions, runs, the history engine and texts by
//! themselves, on the examples of `docs/RULES.md`.

use second::{CommandFields, Format, Mark, Pair};
use simulate::checks::formed::formed_as;
use simulate::checks::history::{after, State, LENT};
use simulate::checks::runs::{end, whole};
use simulate::checks::store::Store;
use simulate::checks::texts::{compared, drops};
use simulate::checks::versions::{conversion_number, exists, size};
use simulate::checks::{Check, Made};
use simulate::library::Answer;

/// The stamp 1.1.0.
const STAMP: u64 = 1 << 32 | 1 << 16;

/// An exclusive command of card 0 under (1.1.0, 1.1.0).
fn command(format: Format, act: u8) -> CommandFields {
    CommandFields {
        format,
        act,
        mode: 2,
        pair: Pair::new(STAMP, STAMP),
        ..CommandFields::default()
    }
}

/// The text of section 12's example, with its two drops as they are given.
fn text(first: [u8; 3], last: [u8; 3]) -> Vec<u8> {
    let mut text = vec![1, 3, 2, 6];
    text.extend(b"Charge");
    text.push(3);
    text.extend(first);
    text.extend([4, 1, 2, 2, 4]);
    text.extend(b"Drop");
    text.push(3);
    text.extend(last);
    text
}

fn degrees(unit: u8, tenths: u16) -> [u8; 3] {
    let [low, high] = tenths.to_le_bytes();
    [unit, low, high]
}

#[test]
fn section_12s_example() {
    let original = text(degrees(b'C', 1_900), degrees(b'C', 2_050));
    assert_eq!((original.len(), drops(&original)), (27, vec![10, 23]));
    let translation = text(degrees(b'F', 3_740), degrees(b'F', 4_010));
    assert_eq!(compared(&original, &translation), (0, 0));
    let wrong = text(degrees(b'F', 3_740), degrees(b'F', 4_020));
    assert_eq!(compared(&original, &wrong), (20, 23));
    let mut more = translation.clone();
    more[16] = 3;
    more.extend([2, 0]);
    assert_eq!(compared(&original, &more), (20, 27));
    assert_eq!(compared(&more, &original), (20, 27));
    assert_eq!(compared(&original[..26], &original), (18, 0));
    assert_eq!(compared(&original, &original[..26]), (19, 0));
    more.push(0);
    assert_eq!(compared(&more, &[]), (18, 0));
    for (levels, number) in [(8, 0), (9, 18)] {
        let mut nested = vec![1];
        (1..levels).for_each(|_| nested.extend([1, 4, 1]));
        nested.push(0);
        assert_eq!(compared(&nested, &nested).0, number, "{levels} sections");
    }
}

#[test]
fn near_drops_and_ties() {
    for (first, second, near) in [
        ((b'C', 2_050), (b'F', 4_010), true),
        ((b'C', 2_050), (b'F', 4_015), true),
        ((b'C', 2_050), (b'F', 4_005), true),
        ((b'C', 2_050), (b'F', 4_016), false),
        ((b'C', 2_050), (b'F', 4_004), false),
        ((b'C', 180), (b'F', 639), false),
        ((b'C', 1_245), (b'F', 2_556), false),
        ((b'F', 6), (b'F', 11), false),
        ((b'C', 105), (b'F', 504), true),
    ] {
        let one = |(unit, tenths)| [&[1, 1, 3][..], &degrees(unit, tenths)].concat();
        let number = compared(&one(first), &one(second));
        let expected = if near { (0, 0) } else { (20, 2) };
        assert_eq!(number, expected, "{first:?}, {second:?}");
    }
}

#[test]
fn shapes_of_version_2() {
    for (cards, room, bytes, made) in [
        (1, 16, 144, true),
        (12, 1_024, 62_032, true),
        (13, 1_024, 67_200, false),
        (15, 864, 65_536, true),
        (65, 192, 65_536, true),
        (32, 400, 65_552, false),
        (128, 80, 57_360, true),
        (128, 96, 67_600, false),
    ] {
        let (n, c) = (cards as usize, room as usize);
        assert_eq!(size(Format::V2, n, c), bytes);
        assert_eq!(exists(Format::V2, cards, room), made);
        assert_eq!(conversion_number(n, c, bytes) == 0, made);
        assert_eq!(conversion_number(n, c, bytes - 1), 14);
    }
    assert_eq!(size(Format::V1, 13, 1_024), 27_056);
}

/// A store that has taken these commands in, each with its number.
fn taken(store: &mut Store, commands: &[(CommandFields, &[u8], u8)]) {
    let mut made = Made::default();
    for (fields, payload, number) in commands {
        let bytes = fields.with_payload(payload);
        let sent = formed_as(fields.format, &bytes);
        assert_eq!(store.number(sent.as_ref(), 16), *number, "{fields:?}");
        assert_eq!(store.recovering(&mut made, &bytes).unwrap().number, *number);
    }
}

/// The mark of section 15's example.
const MARK: Mark = Mark {
    desk: 1,
    transaction: 7,
};

/// The store of section 15's example, converted.
fn converted() -> Store {
    let mut store = Store::new(1, 16, true);
    let first = command(Format::V1, 3);
    let translated = CommandFields {
        edition: 1,
        ..command(Format::V1, 4)
    };
    let last = CommandFields {
        next: MARK,
        ..command(Format::V1, 3)
    };
    taken(
        &mut store,
        &[
            (first, b"204", 0),
            (translated, b"40", 0),
            (last, b"205", 0),
        ],
    );
    store.convert();
    store
}

#[test]
fn section_15s_image() {
    let mut expected = vec![0x52, 0x43, 0x31, 0, 2, 0, 1, 0, 16, 0, 0, 0, 0, 0, 0, 0];
    expected.extend([STAMP.to_le_bytes(), STAMP.to_le_bytes()].concat());
    expected.extend([1, 0, 0, 0, 7, 0, 0, 0, 2, 0, 3, 0, 1, 0, 0, 0, 0, 0, 0, 0]);
    expected.extend([2, 0, 0, 0, 0, 0, 0, 0, 0, 0, 0, 0]);
    for text in [&b"205"[..], b"40", b"", b"", b""] {
        expected.extend(text);
        expected.extend(vec![0; 16 - text.len()]);
    }
    assert_eq!(converted().image, expected);
}

#[test]
fn section_15s_commands() {
    let mut store = converted();
    let write = CommandFields {
        language: 1,
        expected: MARK,
        next: MARK,
        edition: 2,
        ..command(Format::V2, 4)
    };
    assert_eq!(write.with_payload(b"402").len(), 71);
    let read = |language| CommandFields {
        language,
        expected: MARK,
        next: MARK,
        ..command(Format::V2, 2)
    };
    let number = |store: &Store, fields: &CommandFields, payload: &[u8]| {
        let bytes = fields.with_payload(payload);
        store.number(formed_as(Format::V2, &bytes).as_ref(), 16)
    };
    assert_eq!(number(&store, &read(1), b""), 6);
    let fields = [STAMP, STAMP, 1, 7, 2, 2, 0];
    in_run(&mut store, &write, b"402", fields);
    assert_eq!(number(&store, &read(1), b""), 0);
    assert_eq!(number(&store, &read(0), b""), 6);
    assert_eq!(number(&store, &read(2), b""), 6);
    assert_eq!(number(&store, &read(4), b""), 1);
    let fields = [STAMP, STAMP, 1, 7, 2, 2, 3];
    in_run(&mut store, &read(1), b"", fields);
}

/// A command of a run is accepted with these fields, and any others would be a
/// breach.
fn in_run(store: &mut Store, sent: &CommandFields, payload: &[u8], fields: [u64; 7]) {
    let bytes = sent.with_payload(payload);
    let (mut made, mut reply) = (Made::default(), [0; 16]);
    let mut judged = |store: &mut Store, fields| {
        let line = Answer { number: 0, fields };
        store.in_run(&mut made, Format::V2, &bytes, &line, &mut reply)
    };
    let breach = judged(&mut store.clone(), [7; 7]).unwrap_err();
    assert_eq!(breach.check, Check::RunLines);
    judged(store, fields).unwrap();
    assert_eq!(reply.starts_with(b"402"), fields[6] == 3);
}

#[test]
fn section_14s_example() {
    let write = command(Format::V1, 3).with_payload(b"205");
    let nothing = State {
        answer: Answer::default(),
        reply: vec![9; 4],
        bytes: vec![0x77; LENT],
        used: 0,
    };
    let mut state = after(&nothing, (1, 16), &write);
    assert_eq!((state.answer.number, state.used), (0, 55));
    assert_eq!(state.answer.fields, [STAMP, STAMP, 0, 0, 1, 0, 0]);
    assert_eq!((&state.bytes[..55], state.bytes[55]), (&write[..], 0x77));
    state = after(&state, (1, 16), &command(Format::V1, 1).to_bytes());
    assert_eq!((state.answer.fields[6], state.used), (3, 107));
    assert_eq!(state.reply, [b'2', b'0', b'5', 9]);
    let verify = command(Format::V1, 5).to_bytes();
    for _ in 0..198 {
        state = after(&state, (1, 16), &verify);
        assert_eq!(state.answer.number, 0);
    }
    assert_eq!(state.used, 10_403);
    let full = after(&state, (1, 16), &verify);
    assert_eq!((full.answer.number, full.answer.fields[4]), (22, 1));
    assert_eq!((full.bytes == state.bytes, full.used), (true, 10_403));
    let beyond = State {
        used: u64::MAX,
        ..nothing
    };
    // Of bytes 0x77 that all count the first command has 30,583 bytes of payload
    // and ends at 30,635; the second is cut.
    assert_eq!(after(&beyond, (1, 16), &write).used, 30_635 + 55);
}

#[test]
fn a_stream_is_walked_by_the_length_at_50() {
    let one = command(Format::V2, 5).to_bytes();
    let two = command(Format::V2, 3).with_payload(b"205");
    let stream = [&one[..], &two, &one[..67]].concat();
    assert_eq!(whole(Format::V2, &stream, 0), Some(68));
    assert_eq!(whole(Format::V2, &stream, 68), Some(139));
    assert_eq!(whole(Format::V2, &stream, 139), None);
    assert_eq!(whole(Format::V2, &stream, 999), None);
    assert_eq!(end(Format::V2, &stream), 139);
    assert_eq!(end(Format::V2, &stream[..138]), 68);
}

#[test]
fn a_command_of_one_version_is_malformed_in_the_other() {
    for (format, payload) in [(Format::V1, &b"205"[..]), (Format::V2, b"")] {
        let bytes = command(format, 3).with_payload(payload);
        assert!(formed_as(format, &bytes).is_some());
        assert!(formed_as(format.other(), &bytes).is_none());
    }
}
