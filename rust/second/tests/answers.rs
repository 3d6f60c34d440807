//! Every row of rule 4.1 with the neighbours that just miss it, and the order
//! of the rows.

mod common;

use common::check;
use common::*;
use second::{CommandFields, Entry, Mark, Pair, ReplyFields};

/// A stored pair with room below and above each stamp.
fn stored_pair() -> Pair {
    Pair::new(at(5, 5), at(7, 7))
}

/// A sound card: edition 3, a translation made from it, a mark.
fn stored() -> Entry {
    Entry {
        pair: stored_pair(),
        mark: MARK,
        ..entry(3, 3)
    }
}

fn image() -> Vec<u8> {
    one_card(stored(), b"original", b"translation")
}

/// A command that the card accepts.
fn accepted(act: u8, mode: u8) -> CommandFields {
    CommandFields {
        expected: MARK,
        next: MARK,
        edition: if act == WRITE_TRANSLATION { 3 } else { 0 },
        ..fields(act, mode, stored_pair())
    }
}

/// The number a command gets, with this payload.
fn judged(fields: CommandFields, payload: &[u8]) -> u8 {
    number_on(&image(), &fields.with_payload(payload))
}

const ALLOWED: [(u8, u8); 8] = [
    (READ_ORIGINAL, SHARED),
    (READ_ORIGINAL, EXCLUSIVE),
    (READ_TRANSLATION, SHARED),
    (READ_TRANSLATION, EXCLUSIVE),
    (WRITE_ORIGINAL, EXCLUSIVE),
    (WRITE_TRANSLATION, EXCLUSIVE),
    (VERIFY, SHARED),
    (VERIFY, EXCLUSIVE),
];

#[test]
fn row_0_every_act_and_mode() {
    for (act, mode) in ALLOWED {
        assert_eq!(judged(accepted(act, mode), b""), 0, "act {act} mode {mode}");
    }
}

#[test]
fn row_0_fields_and_bytes_of_each_act() {
    let mut image = fresh(2, 16);
    let original = on_card(1, write_original(a_prime(), b"two"));
    let answer = send(&mut image, &original);
    let fields = ReplyFields {
        pair: a_prime(),
        edition: 1,
        ..ReplyFields::default()
    };
    assert_eq!((answer.number, answer.fields), (0, fields));
    assert_eq!(image[16 + 32..16 + 64][..16], a_prime_bytes());
    assert_eq!(image[16 + 64 + 32..][..4], *b"two\0");

    let mut translation = fields_of_translation(1);
    translation.next = Mark::new(9, 10);
    let answer = send(&mut image, &translation.with_payload(b"zwei"));
    assert_eq!(answer.number, 0);
    assert_eq!(
        answer.fields.numbers(),
        [b_prime().s, b_prime().x, 9, 10, 1, 1, 0]
    );
    assert_eq!(image[16 + 64 + 48..][..5], *b"zwei\0");

    let mut reply = *b"......";
    let mut read = fields_of_translation(0);
    (read.act, read.expected) = (READ_TRANSLATION, Mark::new(9, 10));
    let answer = check::answer(V1, &mut image, &read.with_payload(b""), &mut reply);
    assert_eq!(
        answer.fields.numbers(),
        [b_prime().s, b_prime().x, 0, 0, 1, 1, 4]
    );
    assert_eq!(reply, *b"zwei..");
}

fn fields_of_translation(edition: u16) -> CommandFields {
    CommandFields {
        card: 1,
        edition,
        ..fields(WRITE_TRANSLATION, EXCLUSIVE, b_prime())
    }
}

fn a_prime_bytes() -> [u8; 16] {
    [0, 0, 1, 0, 1, 0, 0, 0, 0, 0, 1, 0, 1, 0, 0, 0]
}

#[test]
fn row_0_writing_the_same_bytes_raises_the_edition() {
    let mut image = image();
    let write = accepted(WRITE_ORIGINAL, EXCLUSIVE).with_payload(b"original");
    assert_eq!(send(&mut image, &write).fields.edition, 4);
    assert_eq!(send(&mut image, &write).fields.edition, 5);
}

#[test]
fn row_0_a_shorter_text_zeroes_the_rest_of_its_body_only() {
    let mut image = image();
    let write = accepted(WRITE_ORIGINAL, EXCLUSIVE).with_payload(b"or");
    assert_eq!(number(&mut image, &write), 0);
    assert_eq!(image[48..64], *b"or\0\0\0\0\0\0\0\0\0\0\0\0\0\0");
    assert_eq!(image[64..80], *b"translation\0\0\0\0\0");
}

#[test]
fn row_0_an_old_translation_stays_but_is_behind_until_written_anew() {
    let mut image = image();
    let original = accepted(WRITE_ORIGINAL, EXCLUSIVE).with_payload(b"next");
    let read = accepted(READ_TRANSLATION, SHARED).with_payload(b"");
    let mut translation = accepted(WRITE_TRANSLATION, EXCLUSIVE);
    assert_eq!(number(&mut image, &original), 0);
    assert_eq!(number(&mut image, &read), 6);
    assert_eq!(image[64..75], *b"translation");
    assert_eq!(number(&mut image, &translation.with_payload(b"n")), 6);
    translation.edition = 4;
    assert_eq!(number(&mut image, &translation.with_payload(b"n")), 0);
    assert_eq!(number(&mut image, &read), 0);
}

#[test]
fn row_9_an_unsound_image() {
    let command = accepted(VERIFY, SHARED).with_payload(b"");
    let mut image = image();
    assert_eq!(number_on(&image, &command), 0);
    image[79] = 1;
    assert_eq!(number_on(&image, &command), 9);
    assert_eq!(number_on(&image, b"malformed"), 9);
    assert_eq!(number_on(&image, &on_card(1, command.clone())), 9);
    assert_eq!(number_on(&[], &command), 9);
}

#[test]
fn row_1_a_malformed_command() {
    assert_eq!(number_on(&image(), b""), 1);
    let mut verify = accepted(VERIFY, SHARED);
    verify.mode = 3;
    verify.card = 1;
    assert_eq!(judged(verify, b""), 1);
    verify.mode = SHARED;
    assert_eq!(judged(verify, b""), 2);
    verify.card = 0;
    assert_eq!(judged(verify, b""), 0);
}

#[test]
fn row_2_a_card_that_does_not_exist() {
    for (cards, room) in [(1, 16), (2, 16), (127, 16), (128, 16), (31, 1_024)] {
        let image = fresh(cards, room);
        let verify = command(VERIFY, SHARED, a());
        for card in [0, cards as u16 - 1] {
            assert_eq!(number_on(&image, &on_card(card, verify.clone())), 0);
        }
        for card in [cards as u16, cards as u16 + 1, 256, 0x8000, u16::MAX] {
            assert_eq!(number_on(&image, &on_card(card, verify.clone())), 2);
        }
    }
}

#[test]
fn row_2_comes_before_all_that_needs_an_entry() {
    let mut write = accepted(WRITE_ORIGINAL, EXCLUSIVE);
    write.pair = a_prime();
    write.card = 1;
    write.expected = Mark::default();
    assert_eq!(judged(write, &[1; 17]), 2);
    write.card = 0;
    assert_eq!(judged(write, &[1; 17]), 3);
}

/// The number for a verify command whose stamps stand so far from the stored.
fn offset(mode: u8, s: i64, x: i64) -> u8 {
    let pair = stored_pair();
    let pair = Pair::new(pair.s.wrapping_add_signed(s), pair.x.wrapping_add_signed(x));
    let mut verify = accepted(VERIFY, mode);
    verify.pair = pair;
    judged(verify, b"")
}

#[test]
fn row_3_shared_looks_at_x_alone() {
    // One T below keeps the desk; one start above as well.
    let below = -(1 << 32);
    for s in [below, 0, 1, 1 << 32] {
        assert_eq!(offset(SHARED, s, below), 3);
        assert_eq!(offset(SHARED, s, 0), 0);
        assert_eq!(offset(SHARED, s, 1), 0);
    }
}

#[test]
fn row_3_exclusive_looks_at_both() {
    let below = -(1 << 32);
    for other in [below, 0, 1, 1 << 32] {
        assert_eq!(offset(EXCLUSIVE, below, other), 3);
        assert_eq!(offset(EXCLUSIVE, other, below), 3);
    }
    for (s, x) in [(0, 0), (0, 1), (1, 0), (1, 1), (1 << 32, 1 << 32)] {
        assert_eq!(offset(EXCLUSIVE, s, x), 0);
    }
}

#[test]
fn row_3_one_below_as_a_single_number() {
    // 5.5.0 minus 1 is 5.4.65535; 7.7.0 minus 1 is 7.6.65535.
    assert_eq!(offset(EXCLUSIVE, -1, 0), 3);
    assert_eq!(offset(EXCLUSIVE, 0, -1), 3);
    assert_eq!(offset(SHARED, 0, -1), 3);
    assert_eq!(offset(SHARED, -1, 0), 0);
}

#[test]
fn row_3_a_zero_stamp_is_below_every_other() {
    let mut verify = accepted(VERIFY, SHARED);
    verify.pair.x = 0;
    assert_eq!(judged(verify, b""), 3);
    let mut verify = accepted(VERIFY, EXCLUSIVE);
    verify.pair.s = 0;
    assert_eq!(judged(verify, b""), 3);
}

/// The number for a verify command with this verifier and the stored pair, one
/// T later each, as its update pair.
fn opening(mode: u8, verifier: Pair) -> u8 {
    let Pair { s, x } = stored_pair();
    let mut verify = accepted(VERIFY, mode);
    verify.pair = verifier;
    verify.update = Pair::new(s + (1 << 32), x + (1 << 32));
    judged(verify, b"")
}

#[test]
fn row_3_looks_at_the_verifier_alone() {
    let Pair { s, x } = stored_pair();
    for mode in [SHARED, EXCLUSIVE] {
        assert_eq!(opening(mode, Pair::new(s, x)), 0);
        assert_eq!(opening(mode, Pair::new(s, x - 1)), 3);
        assert_eq!(opening(mode, Pair::new(s, 0)), 3);
        assert_eq!(opening(mode, Pair::default()), 3);
    }
    for (verifier, number) in [(s - 1, 3), (0, 3), (s, 0)] {
        assert_eq!(opening(EXCLUSIVE, Pair::new(verifier, x)), number);
        assert_eq!(opening(SHARED, Pair::new(verifier, x)), 0);
    }
}

#[test]
fn row_3_stamps_with_the_top_bit_are_large() {
    let top = at(u32::MAX, u16::MAX);
    let newest = Pair::new(top, top);
    let kept = Entry {
        pair: newest,
        ..entry(0, 0)
    };
    let mut image = one_card(kept, b"", b"");
    assert_eq!(number(&mut image, &command(VERIFY, EXCLUSIVE, newest)), 0);
    assert_eq!(
        number(&mut image, &command(VERIFY, EXCLUSIVE, a_prime())),
        3
    );
    assert_eq!(number(&mut image, &command(VERIFY, SHARED, a_prime())), 3);
}

/// The number when this mark is stored and that one expected.
fn marks(stored_mark: Mark, expected: Mark) -> u8 {
    let entry = Entry {
        mark: stored_mark,
        ..stored()
    };
    let mut verify = accepted(VERIFY, SHARED);
    verify.expected = expected;
    number_on(&one_card(entry, b"", b""), &verify.with_payload(b""))
}

#[test]
fn row_4_other_desks_and_lower_transactions_are_refused() {
    let none = Mark::default();
    assert_eq!(marks(none, none), 0);
    assert_eq!(marks(none, Mark::new(1, 1)), 4);
    assert_eq!(marks(MARK, none), 4);
    assert_eq!(marks(MARK, MARK), 0);
    for (desk, transaction) in [(1, 0), (0x8000, 0), (0, 1), (0, 0x1_0000), (0, 0x8000_0000)] {
        let off = Mark::new(MARK.desk ^ desk, MARK.transaction ^ transaction);
        let higher = desk == 0 && off.transaction > MARK.transaction;
        let number = match off.is_valid() {
            true if higher => 0,
            true => 4,
            false => 1,
        };
        assert_eq!(marks(MARK, off), number);
    }
    assert_eq!(marks(Mark::new(1, 2), Mark::new(2, 1)), 4);
    assert_eq!(marks(Mark::new(2, 2), Mark::new(2, 3)), 0);
    assert_eq!(marks(Mark::new(5, 7), Mark::new(5, 7)), 0);
    assert_eq!(marks(Mark::new(5, 7), Mark::new(5, 8)), 0);
    assert_eq!(marks(Mark::new(5, 7), Mark::new(5, 6)), 4);
    assert_eq!(marks(Mark::new(5, 7), Mark::new(6, 7)), 4);
    assert_eq!(marks(Mark::new(2, 2), Mark::new(3, 2)), 4);
}

#[test]
fn row_4_the_next_mark_is_stored_even_if_it_is_zero_or_the_same() {
    for next in [Mark::default(), MARK, Mark::new(1, u32::MAX)] {
        let mut image = image();
        let mut verify = accepted(VERIFY, SHARED);
        verify.next = next;
        let answer = send(&mut image, &verify.with_payload(b""));
        assert_eq!((answer.number, answer.fields.mark), (0, next));
    }
}

#[test]
fn row_5_the_payload_and_c() {
    for act in [WRITE_ORIGINAL, WRITE_TRANSLATION] {
        for (length, expected) in [(0, 0), (1, 0), (15, 0), (16, 0), (17, 5), (65_535, 5)] {
            let write = accepted(act, EXCLUSIVE);
            assert_eq!(judged(write, &vec![1; length]), expected);
        }
    }
}

#[test]
fn row_6_act_2_and_a_translation_behind() {
    for (edition, translated_from, expected) in [
        (0, 0, 6),
        (1, 0, 6),
        (1, 1, 0),
        (2, 1, 6),
        (2, 2, 0),
        (65_535, 65_534, 6),
        (65_535, 65_535, 0),
    ] {
        let image = one_card(entry(edition, translated_from), b"", b"");
        let read = command(READ_TRANSLATION, SHARED, a());
        assert_eq!(number_on(&image, &read), expected);
        let read = command(READ_ORIGINAL, SHARED, a());
        assert_eq!(number_on(&image, &read), 0);
    }
}

#[test]
fn row_6_act_4_and_the_named_edition() {
    for (edition, named, expected) in [
        (0, 1, 6),
        (0, 65_535, 6),
        (1, 1, 0),
        (1, 2, 6),
        (2, 1, 6),
        (2, 2, 0),
        (2, 3, 6),
        (65_535, 65_535, 0),
        (65_535, 65_534, 6),
        (258, 2, 6),
        (258, 258, 0),
    ] {
        let write = write_translation(a_prime(), named, b"t");
        for translated_from in [0, edition / 2, edition] {
            let image = one_card(entry(edition, translated_from), b"", b"");
            assert_eq!(number_on(&image, &write), expected);
        }
    }
}

#[test]
fn row_7_act_3_alone_at_the_last_edition() {
    let last = one_card(entry(65_535, 65_535), b"o", b"t");
    let before = one_card(entry(65_534, 65_534), b"o", b"t");
    assert_eq!(number_on(&last, &write_original(a_prime(), b"")), 7);
    assert_eq!(number_on(&before, &write_original(a_prime(), b"")), 0);
    assert_eq!(
        number_on(&last, &write_translation(a_prime(), 65_535, b"")),
        0
    );
    for act in [READ_ORIGINAL, READ_TRANSLATION, VERIFY] {
        assert_eq!(number_on(&last, &command(act, SHARED, a())), 0);
    }
}

/// The number of a command with a reply buffer of so many bytes.
fn with_reply(fields: CommandFields, payload: &[u8], length: usize) -> u8 {
    let command = fields.with_payload(payload);
    check::answer(V1, &mut image(), &command, &mut vec![0xaa; length]).number
}

#[test]
fn row_8_the_text_and_the_reply_buffer() {
    for (act, length) in [(READ_ORIGINAL, 8), (READ_TRANSLATION, 11)] {
        for mode in [SHARED, EXCLUSIVE] {
            let read = accepted(act, mode);
            for short in 0..length {
                assert_eq!(with_reply(read, b"", short), 8);
            }
            for enough in [length, length + 1, 16, 1_000] {
                assert_eq!(with_reply(read, b"", enough), 0);
            }
        }
    }
}

#[test]
fn row_8_is_for_reads() {
    for (act, mode) in [
        (WRITE_ORIGINAL, EXCLUSIVE),
        (WRITE_TRANSLATION, EXCLUSIVE),
        (VERIFY, SHARED),
        (VERIFY, EXCLUSIVE),
    ] {
        assert_eq!(with_reply(accepted(act, mode), b"", 0), 0);
    }
    let write = accepted(WRITE_ORIGINAL, EXCLUSIVE);
    assert_eq!(with_reply(write, b"a text", 0), 0);
}

#[test]
fn row_8_an_empty_text_needs_no_buffer() {
    let image = one_card(entry(1, 1), b"", b"");
    for act in [READ_ORIGINAL, READ_TRANSLATION] {
        let read = command(act, SHARED, a());
        assert_eq!(
            check::answer(V1, &mut image.clone(), &read, &mut []).number,
            0
        );
    }
}

/// The number that a command under this pair gets on a card that keeps a pair.
fn ahead(mode: u8, stored: Pair, pair: Pair) -> u8 {
    let kept = Entry {
        pair: stored,
        ..entry(3, 3)
    };
    number_on(&one_card(kept, b"", b""), &command(VERIFY, mode, pair))
}

#[test]
fn row_17_each_side_by_itself() {
    let stored = stored_pair();
    let (s, x) = (1_000_005, 1_000_007);
    for mode in [SHARED, EXCLUSIVE] {
        for (more_s, more_x) in [(0, 0), (0, 1), (1, 0), (1, 1)] {
            let pair = Pair::new(at(s + more_s, 1), at(x + more_x, 1));
            let number = if more_s + more_x == 0 { 0 } else { 17 };
            assert_eq!(ahead(mode, stored, pair), number, "{more_s} {more_x}");
        }
        assert_eq!(ahead(mode, stored, Pair::new(at(s, 1), stored.x)), 0);
        assert_eq!(ahead(mode, stored, Pair::new(at(s + 1, 1), stored.x)), 17);
        assert_eq!(ahead(mode, stored, Pair::new(stored.s, at(x, 1))), 0);
        assert_eq!(ahead(mode, stored, Pair::new(stored.s, at(x + 1, 1))), 17);
    }
}

#[test]
fn row_17_on_a_fresh_card_with_one_stamp() {
    let fresh = Pair::default();
    for (time, number) in [(999_999, 0), (1_000_000, 0), (1_000_001, 17)] {
        assert_eq!(ahead(SHARED, fresh, Pair::new(at(time, 1), 0)), number);
        assert_eq!(ahead(EXCLUSIVE, fresh, Pair::new(0, at(time, 1))), number);
    }
    assert_eq!(ahead(SHARED, fresh, Pair::new(at(u32::MAX, 1), 0)), 17);
}

/// The T alone counts, not the desk and the start behind it.
#[test]
fn row_17_the_time_alone() {
    let stored = |desk| Pair::new(second::stamp::stamp(9, desk, 0), 0);
    let s = |time, desk, start| Pair::new(second::stamp::stamp(time, desk, start), 0);
    let largest = s(1_000_009, u16::MAX, u16::MAX);
    assert_eq!(ahead(SHARED, stored(1), largest), 0);
    assert_eq!(ahead(SHARED, stored(u16::MAX), s(1_000_010, 1, 0)), 17);
}

/// A stamp below the stored one is not ahead of it, however far below.
#[test]
fn row_17_a_stamp_below() {
    let stored = Pair::new(at(u32::MAX, 1), 0);
    assert_eq!(ahead(SHARED, stored, Pair::new(at(1, 1), 0)), 0);
}

#[test]
fn row_17_replies_the_entry_as_stored() {
    let far = Pair::new(at(5, 5), at(1_000_008, 7));
    let mut fields = accepted(READ_TRANSLATION, SHARED);
    fields.pair = far;
    let (mut image, mut reply) = (image(), [7; 20]);
    let answer = check::answer(V1, &mut image, &fields.with_payload(b""), &mut reply);
    assert_eq!((answer.number, answer.fields.pair), (17, stored_pair()));
}

#[test]
fn row_17_after_3_and_before_4() {
    let mut command = accepted(VERIFY, EXCLUSIVE);
    command.pair = Pair::new(at(4, 5), at(1_000_008, 7));
    assert_eq!(judged(command, b""), 3, "3 before 17");
    command.pair = Pair::new(at(5, 5), at(1_000_008, 7));
    command.expected = Mark::default();
    assert_eq!(judged(command, b""), 17, "17 before 4");
    command.pair = Pair::new(at(5, 5), at(1_000_007, 7));
    assert_eq!(judged(command, b""), 4);
}

/// Each command breaks two rows; the earlier one gives the number.
#[test]
fn the_order_of_the_rows() {
    let stale = a_prime();
    let none = Mark::default();
    let mut command = accepted(VERIFY, EXCLUSIVE);
    command.pair = stale;
    command.expected = none;
    assert_eq!(judged(command, b""), 3, "3 before 4");

    let mut command = accepted(WRITE_ORIGINAL, EXCLUSIVE);
    command.expected = none;
    assert_eq!(judged(command, &[1; 17]), 4, "4 before 5");

    let mut command = accepted(WRITE_TRANSLATION, EXCLUSIVE);
    command.edition = 2;
    assert_eq!(judged(command, &[1; 17]), 5, "5 before 6");
    assert_eq!(judged(command, &[1; 16]), 6);
    command.expected = none;
    assert_eq!(judged(command, &[1; 16]), 4, "4 before 6");
    command.pair = stale;
    assert_eq!(judged(command, &[1; 16]), 3, "3 before 6");
}

#[test]
fn the_order_of_the_rows_at_the_last_edition() {
    let last = one_card(
        Entry {
            edition: 65_535,
            ..stored()
        },
        b"",
        b"",
    );
    let mut write = accepted(WRITE_ORIGINAL, EXCLUSIVE);
    assert_eq!(
        number_on(&last, &write.with_payload(&[1; 17])),
        5,
        "5 before 7"
    );
    assert_eq!(number_on(&last, &write.with_payload(&[1; 16])), 7);
    write.expected = Mark::default();
    assert_eq!(
        number_on(&last, &write.with_payload(&[1; 16])),
        4,
        "4 before 7"
    );
    write.pair = a_prime();
    assert_eq!(
        number_on(&last, &write.with_payload(&[1; 16])),
        3,
        "3 before 7"
    );
}

#[test]
fn the_order_of_the_rows_with_a_short_reply_buffer() {
    let behind = one_card(
        Entry {
            edition: 4,
            ..stored()
        },
        b"original",
        b"translation",
    );
    let mut read = accepted(READ_TRANSLATION, SHARED);
    let number = |image: &[u8], read: CommandFields| {
        check::answer(
            V1,
            &mut image.to_vec(),
            &read.with_payload(b""),
            &mut [0; 3],
        )
        .number
    };
    assert_eq!(number(&behind, read), 6, "6 before 8");
    assert_eq!(number(&image(), read), 8);
    read.expected = Mark::default();
    assert_eq!(number(&image(), read), 4, "4 before 8");
    read.pair = a_prime();
    assert_eq!(number(&image(), read), 3, "3 before 8");
}
