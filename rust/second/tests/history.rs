//! The history engine: what it works out, both limits and their neighbours,
//! and that it answers as the store does.

mod common;

use common::*;
use second::history::{answer_in, HISTORY_BYTES, MOST_KEPT, MOST_PAYLOAD};
use second::{answer, CommandFields, Entry, History, Mark, Pair, ReplyFields, Translation};

/// A verify of card 0 by A, which is always accepted.
fn again() -> Vec<u8> {
    command(VERIFY, SHARED, a())
}

/// The reply fields of an entry with no text read.
fn fields(entry: Entry) -> ReplyFields {
    ReplyFields {
        pair: entry.pair,
        mark: entry.mark,
        edition: entry.edition,
        translated_from: entry.translation(0).from,
        length: 0,
    }
}

#[test]
fn an_entry_is_worked_out() {
    let mut history = History::default();
    let mut send = |bytes: &[u8]| history.answer(2, 16, bytes, &mut [0; 3]).number;
    let marked = CommandFields {
        next: Mark::new(5, 7),
        ..common::fields(VERIFY, SHARED, b())
    };
    assert_eq!(send(&write_original(a_prime(), b"205")), 0);
    assert_eq!(send(&on_card(1, write_original(b_prime(), b"other"))), 0);
    assert_eq!(send(&write_original(a_prime(), b"206")), 0);
    assert_eq!(send(&write_translation(a_prime(), 2, b"40")), 0);
    assert_eq!(send(&marked.with_payload(&[])), 0);
    let none = Translation::default();
    let entry = Entry {
        pair: Pair::new(at(2, 2), at(1, 1)),
        mark: Mark::new(5, 7),
        original_length: 3,
        translations: [Translation { from: 2, length: 2 }, none, none, none],
        edition: 2,
    };
    assert_eq!(history.entry(0), entry);
    assert_eq!(history.text(0, ORIGINAL), b"206");
    assert_eq!(history.text(0, TRANSLATION), b"40");
    assert_eq!(history.text(1, ORIGINAL), b"other");
    assert_eq!(history.entry(2), Entry::default());
}

/// A kept command counts by its update pair.
#[test]
fn an_update_pair_is_worked_out() {
    let mut history = History::default();
    let opened = CommandFields {
        update: Pair::new(at(2, 2), at(1, 1)),
        ..common::fields(VERIFY, SHARED, Pair::new(0, 0))
    };
    let told = history.answer(1, 16, &opened.with_payload(&[]), &mut []);
    assert_eq!((told.number, told.fields.pair), (0, b()));
    assert_eq!(history.entry(0).pair, b());
    assert_eq!(history.answer(1, 16, &again(), &mut []).number, 3);
}

#[test]
fn two_hundred_and_no_more() {
    let mut history = History::default();
    for _ in 0..MOST_KEPT {
        assert_eq!(history.answer(1, 16, &again(), &mut []).number, 0);
    }
    let before = history.clone();
    let told = history.answer(1, 16, &again(), &mut []);
    assert_eq!((told.number, told.fields), (22, fields(before.entry(0))));
    assert_eq!(history, before);
    // 22 is the last row: a full history still gives every other number.
    let behind = command(READ_TRANSLATION, SHARED, a());
    assert_eq!(history.answer(1, 16, &behind, &mut []).number, 6);
    assert_eq!(history.answer(1, 16, &again()[..51], &mut []).number, 1);
    assert_eq!(
        history.answer(1, 16, &on_card(1, again()), &mut []).number,
        2
    );
}

#[test]
fn so_many_payload_bytes_and_no_more() {
    let write = |length: usize| write_original(a_prime(), &vec![7; length]);
    let mut history = History::default();
    for _ in 0..31 {
        assert_eq!(history.answer(1, 1024, &write(1024), &mut []).number, 0);
    }
    assert_eq!(history.answer(1, 1024, &write(1023), &mut []).number, 0);
    assert_eq!(history.payload(), MOST_PAYLOAD - 1);
    let before = history.clone();
    assert_eq!(history.answer(1, 1024, &write(2), &mut []).number, 22);
    assert_eq!(history, before);
    assert_eq!(history.answer(1, 1024, &write(1), &mut []).number, 0);
    assert_eq!(history.payload(), MOST_PAYLOAD);
    assert_eq!(history.answer(1, 1024, &write(1), &mut []).number, 22);
    assert_eq!(history.answer(1, 1024, &write(0), &mut []).number, 0);
    let one = History::default().answer(1, 65_535, &write(MOST_PAYLOAD + 1), &mut []);
    assert_eq!(one.number, 22);
}

#[test]
fn case_p_as_the_store_answers_it() {
    let mut image = fresh(1, 16);
    let mut history = History::default();
    let list = [
        write_original(a_prime(), b"205"),
        command(READ_TRANSLATION, SHARED, b()),
        write_translation(b_prime(), 1, b"401"),
        write_original(a_prime(), b"205"),
        command(READ_TRANSLATION, EXCLUSIVE, b_prime()),
    ];
    for sent in &list {
        let (mut ours, mut theirs) = ([9; 16], [9; 16]);
        let told = answer(&mut image, sent, &mut theirs);
        assert_eq!(history.answer(1, 16, sent, &mut ours), told);
        assert_eq!(ours, theirs);
    }
    assert_eq!(history.count(), 3);
}

#[test]
fn any_bytes_hold_some_history() {
    let first = write_original(a_prime(), b"205");
    let mut bytes = vec![0xff; HISTORY_BYTES];
    bytes[..first.len()].copy_from_slice(&first);
    for (used, count) in [
        (0, 0),
        (54, 0),
        (55, 1),
        (56, 1),
        (HISTORY_BYTES, 1),
        (usize::MAX, 1),
    ] {
        assert_eq!(History::in_bytes(&bytes, used).count(), count);
    }
    let mut used = usize::MAX;
    let told = answer_in(&mut bytes, &mut used, 1, 16, &again(), &mut []);
    assert_eq!(told.number, 3);
    assert_eq!(used, usize::MAX);
    let verify = command(VERIFY, SHARED, a_prime());
    let told = answer_in(&mut bytes, &mut used, 1, 16, &verify, &mut []);
    assert_eq!((told.number, told.fields.edition, used), (0, 1, 107));
    assert_eq!(bytes[55..107], verify);
    assert_eq!(bytes[107..], vec![0xff; HISTORY_BYTES - 107]);
}
