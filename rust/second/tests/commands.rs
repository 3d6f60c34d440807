//! Each field of a command broken in turn (rules 3.1 to 3.4).

mod common;

use common::*;
use second::{Command, CommandFields, Mark, Mode, Pair};

/// Whether the command is well formed; the answer to it must agree.
fn well_formed(command: &[u8]) -> bool {
    let parsed = Command::parse(V1, command).is_some();
    let answer = number_on(&fresh(1, 16), command);
    assert_eq!(parsed, answer != 1);
    parsed
}

/// A well-formed command for each act and mode.
fn good() -> Vec<CommandFields> {
    let exclusive = (1..=5).map(|act| fields(act, EXCLUSIVE, b_prime()));
    let shared = [1, 2, 5].map(|act| fields(act, SHARED, b()));
    let mut all: Vec<_> = exclusive.chain(shared).collect();
    all[3].edition = 1;
    all
}

/// The command with its payload, "ab" for writes.
fn bytes(fields: &CommandFields) -> Vec<u8> {
    match fields.act {
        WRITE_ORIGINAL | WRITE_TRANSLATION => fields.with_payload(b"ab"),
        _ => fields.with_payload(b""),
    }
}

/// Whether each good command is well formed after this change.
fn after(change: impl Fn(&mut CommandFields)) -> Vec<bool> {
    let changed = good().into_iter().map(|mut fields| {
        change(&mut fields);
        well_formed(&bytes(&fields))
    });
    changed.collect()
}

fn all_stay(change: impl Fn(&mut CommandFields)) {
    assert_eq!(after(change), [true; 8]);
}

fn all_break(change: impl Fn(&mut CommandFields)) {
    assert_eq!(after(change), [false; 8]);
}

#[test]
fn the_good_ones() {
    all_stay(|_| {});
}

#[test]
fn act_and_mode_of_any_value() {
    for act in 0..=255 {
        for mode in 0..=255 {
            let mut command = fields(act, mode, b_prime());
            command.edition = (act == WRITE_TRANSLATION).into();
            let write = act == WRITE_ORIGINAL || act == WRITE_TRANSLATION;
            let expected = (1..=5).contains(&act) && (mode == 2 || mode == 1 && !write);
            let parsed = Command::parse(V1, &command.with_payload(b"")).is_some();
            assert_eq!(parsed, expected, "act {act} mode {mode}");
        }
    }
}

#[test]
fn writes_must_be_exclusive() {
    let writes = |fields: &mut CommandFields| fields.mode = SHARED;
    assert_eq!(
        after(writes),
        [true, true, false, false, true, true, true, true]
    );
}

#[test]
fn any_card_is_well_formed() {
    for card in [0, 1, 127, 128, u16::MAX] {
        all_stay(|fields| fields.card = card);
    }
}

#[test]
fn stamps_are_valid() {
    for bad in [1, 0xffff, 1 << 32, 1 << 63, 0xffff_ffff_0000_0000] {
        all_break(|fields| fields.pair.s = bad);
        all_break(|fields| fields.pair.x = bad);
    }
    for good in [1 << 16, u64::MAX, 0xffff_0000, at(1, 1)] {
        all_stay(|fields| fields.pair = Pair::new(good, good));
    }
}

#[test]
fn the_own_stamp_is_nonzero() {
    let no_s = |fields: &mut CommandFields| fields.pair.s = 0;
    let no_x = |fields: &mut CommandFields| fields.pair.x = 0;
    assert_eq!(
        after(no_s),
        [true, true, true, true, true, false, false, false]
    );
    assert_eq!(
        after(no_x),
        [false, false, false, false, false, true, true, true]
    );
    all_break(|fields| fields.pair = Pair::default());
}

/// The pair, and this one as the update pair.
fn opens(fields: &mut CommandFields, verifier: Pair, update: Pair) {
    (fields.pair, fields.update) = (verifier, update);
}

#[test]
fn the_update_pair_reaches_the_verifier() {
    let (one, two) = (b_prime(), Pair::new(at(3, 3), at(3, 3)));
    all_stay(|fields| opens(fields, one, one));
    all_stay(|fields| opens(fields, one, two));
    all_stay(|fields| opens(fields, Pair::default(), one));
    all_stay(|fields| opens(fields, Pair::new(one.s, one.x - 1), one));
    all_stay(|fields| opens(fields, Pair::new(one.s - 1, one.x), one));
    all_break(|fields| opens(fields, one, Pair::new(one.s - 1, two.x)));
    all_break(|fields| opens(fields, one, Pair::new(two.s, one.x - 1)));
    all_break(|fields| opens(fields, two, one));
}

/// Half of the sixteen bytes zero is not all of them zero.
#[test]
fn half_an_update_pair() {
    all_break(|fields| fields.update = Pair::new(0, at(3, 3)));
    let half_s = |fields: &mut CommandFields| opens(fields, a(), Pair::new(at(3, 3), 0));
    let half_x = |fields: &mut CommandFields| {
        let verifier = Pair::new(0, at(1, 1));
        opens(fields, verifier, Pair::new(0, at(3, 3)));
    };
    let shared = [false, false, false, false, false, true, true, true];
    assert_eq!(after(half_s), shared);
    assert_eq!(after(half_x), shared.map(|stays| !stays));
}

/// An update pair has the mode's own stamp; a verifier need not, but is valid
/// (rules 3.3 and 3.4).
#[test]
fn the_rules_of_each_pair() {
    let (one, none) = (b_prime(), Pair::default());
    for bad in [1, 0xffff, 1 << 32, 1 << 63, 0xffff_ffff_0000_0000] {
        let high = Pair::new(u64::MAX, u64::MAX);
        all_break(|fields| opens(fields, none, Pair::new(bad, one.x)));
        all_break(|fields| opens(fields, none, Pair::new(one.s, bad)));
        all_break(|fields| opens(fields, Pair::new(bad, 0), high));
        all_break(|fields| opens(fields, Pair::new(0, bad), high));
    }
    for verifier in [none, Pair::new(0, one.x), Pair::new(one.s, 0)] {
        all_stay(|fields| opens(fields, verifier, one));
    }
}

#[test]
fn each_mark_is_both_zero_or_both_not() {
    for (desk, transaction) in [(1, 0), (0x8000, 0), (0, 1), (0, 0x1_0000), (0, 0x8000_0000)] {
        all_break(|fields| fields.expected = Mark::new(desk, transaction));
        all_break(|fields| fields.next = Mark::new(desk, transaction));
    }
    for mark in [Mark::new(1, 1), MARK, Mark::new(u16::MAX, u32::MAX)] {
        all_stay(|fields| fields.expected = mark);
        all_stay(|fields| fields.next = mark);
        all_stay(|fields| (fields.expected, fields.next) = (mark, mark));
    }
    all_break(|fields| (fields.expected, fields.next) = (Mark::new(1, 0), Mark::new(0, 1)));
}

#[test]
fn the_edition_is_for_act_4() {
    for edition in [1, 2, 256, u16::MAX] {
        let named = |fields: &mut CommandFields| fields.edition = edition;
        assert_eq!(
            after(named),
            [false, false, false, true, false, false, false, false]
        );
    }
    let none = |fields: &mut CommandFields| fields.edition = 0;
    assert_eq!(
        after(none),
        [true, true, true, false, true, true, true, true]
    );
}

#[test]
fn the_length_is_for_acts_3_and_4() {
    for payload in [&b"x"[..], &[0; 16], &[1; 256], &[2; 65_535]] {
        let numbers: Vec<bool> = good()
            .iter()
            .map(|fields| well_formed(&fields.with_payload(payload)))
            .collect();
        assert_eq!(
            numbers,
            [false, false, true, true, false, false, false, false]
        );
    }
}

#[test]
fn the_bytes_are_exactly_52_plus_length() {
    for fields in good() {
        let bytes = bytes(&fields);
        for length in 0..bytes.len() {
            assert!(!well_formed(&bytes[..length]));
        }
        for more in [1, 2, 52, 70_000] {
            let mut longer = bytes.clone();
            longer.resize(bytes.len() + more, 0);
            assert!(!well_formed(&longer));
        }
    }
}

#[test]
fn a_length_that_is_not_the_payloads() {
    for (length, payload) in [
        (0, 1),
        (1, 0),
        (2, 1),
        (1, 2),
        (256, 1),
        (1, 257),
        (0, 65_536),
    ] {
        let mut write = fields(WRITE_ORIGINAL, EXCLUSIVE, b_prime());
        write.length = length;
        assert!(!well_formed(&write.followed_by(&vec![1; payload])));
    }
}

#[test]
fn a_payload_longer_than_any_length_is_malformed() {
    let write = fields(WRITE_ORIGINAL, EXCLUSIVE, b_prime());
    assert!(well_formed(&write.with_payload(&vec![1; 65_535])));
    assert!(!well_formed(&write.with_payload(&vec![1; 65_536])));
}

#[test]
fn a_command_to_the_byte() {
    let fields = CommandFields {
        act: 4,
        mode: 2,
        card: 0x0201,
        pair: Pair::new(0x1817_1615_1413_1211, 0x2827_2625_2423_2221),
        update: Pair::new(0x9897_9695_9493_9291, 0xa8a7_a6a5_a4a3_a2a1),
        expected: Mark::new(0x3231, 0x4443_4241),
        next: Mark::new(0x5251, 0x6463_6261),
        edition: 0x7271,
        length: 0,
        ..CommandFields::default()
    };
    let mut expected = vec![4, 2, 1, 2];
    expected.extend(0x11..=0x18);
    expected.extend(0x21..=0x28);
    expected.extend(0x91..=0x98);
    expected.extend(0xa1..=0xa8);
    expected.extend([0x31, 0x32, 0x41, 0x42, 0x43, 0x44]);
    expected.extend([0x51, 0x52, 0x61, 0x62, 0x63, 0x64]);
    expected.extend([0x71, 0x72, 3, 0]);
    expected.extend(b"abc");
    assert_eq!(fields.with_payload(b"abc"), expected);
}

#[test]
fn a_parsed_command_and_its_session() {
    let pair = Pair::new(0x1_0002_0003, 0x4_0005_0006);
    for (mode, number, desk) in [(Mode::Shared, 1, 0x2_0003), (Mode::Exclusive, 2, 0x5_0006)] {
        let mut verify = fields(VERIFY, number, pair);
        verify.card = 7;
        let bytes = verify.with_payload(b"");
        let session = Command::parse(V1, &bytes).expect("well formed").session();
        assert_eq!((session.card, session.desk), (7, desk));
        assert_eq!((session.mode, session.pair), (mode, pair));
        assert_eq!(mode.number(), number);
    }
}

/// The update pair tells desk and session (rules 1.5 and 1.6).
#[test]
fn the_session_of_an_update_pair() {
    let (verifier, update) = (a_prime(), Pair::new(at(2, 2), at(3, 3)));
    for (number, desk) in [(1, 2 << 16), (2, 3 << 16)] {
        let mut verify = fields(VERIFY, number, verifier);
        verify.update = update;
        let bytes = verify.with_payload(b"");
        let command = Command::parse(V1, &bytes).expect("well formed");
        assert_eq!((command.verifier, command.update), (verifier, update));
        let session = command.session();
        assert_eq!((session.desk, session.pair), (desk, update));
    }
}

/// The second example of rule 3.4 in docs/RULES.md, to the byte.
#[test]
fn the_example_of_two_pairs() {
    let mut bytes = vec![5, 1, 0, 0, 0, 0, 0, 0, 0, 0, 0, 0];
    bytes.extend([0, 0, 1, 0, 1, 0, 0, 0]);
    bytes.extend([0, 0, 2, 0, 2, 0, 0, 0]);
    bytes.extend([0, 0, 1, 0, 1, 0, 0, 0]);
    bytes.extend([0; 16]);
    let command = Command::parse(V1, &bytes).expect("well formed");
    assert_eq!(command.verifier, Pair::new(0, at(1, 1)));
    assert_eq!((command.update, command.desk), (b(), 2 << 16));
}
