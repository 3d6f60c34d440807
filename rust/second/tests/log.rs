//! The redo log: layout, order of transactions, appends with every number of
//! stores, and recovery (rules 11.1 to 11.21).

mod common;

use common::*;
use second::log::{sum, Record, BODIES, LOG_LIMIT};
use second::{append, check, read_back, recover, Layout, Mark, Recovered};

const ALL: u64 = u64::MAX;

fn empty() -> Vec<u8> {
    vec![0; 2_400]
}

fn update(card: u16, side: u8, text: &[u8]) -> Vec<u8> {
    [&card.to_le_bytes()[..], &[side], text].concat()
}

fn synced(card: u16, transaction: u32) -> Vec<u8> {
    [&card.to_le_bytes()[..], &transaction.to_le_bytes()].concat()
}

/// Appends that are all taken.
fn logged(records: &[(u8, Vec<u8>)]) -> Vec<u8> {
    let mut log = empty();
    for (kind, body) in records {
        assert_eq!(append(&mut log, *kind, body, ALL), 0, "{kind} {body:?}");
    }
    log
}

fn begin(transaction: u32) -> (u8, Vec<u8>) {
    (1, transaction.to_le_bytes().to_vec())
}

fn commit(transaction: u32) -> (u8, Vec<u8>) {
    (3, transaction.to_le_bytes().to_vec())
}

#[test]
fn layout() {
    let log = logged(&[begin(7)]);
    assert_eq!(log[..12], [1, 1, 0x99, 8, 0, 0, 4, 0, 7, 0, 0, 0]);
    assert_eq!(log[BODIES..BODIES + 4], [7, 0, 0, 0]);
    assert!(log[12..BODIES].iter().all(|&byte| byte == 0));
    let read = read_back(&log).expect("good");
    assert_eq!(read.records.len(), 1);
    assert_eq!(read.records[0].record, Record::Begin(7));
}

#[test]
fn lengths_and_counts() {
    for (length, number) in [(2_200, 23), (2_201, 0), (LOG_LIMIT, 0), (LOG_LIMIT + 1, 23)] {
        assert_eq!(check(&vec![0; length]), number, "{length}");
    }
    let mut log = empty();
    log[0] = 201;
    assert_eq!(check(&log), 23);
    assert_eq!(check(&[]), 23);
}

#[test]
fn order_of_transactions() {
    let mut log = empty();
    assert_eq!(append(&mut log, 2, &update(0, 1, b"a"), ALL), 23);
    assert_eq!(append(&mut log, 3, &[1, 0, 0, 0], ALL), 23);
    assert_eq!(append(&mut log, 1, &[0, 0, 0, 0], ALL), 23);
    assert_eq!(append(&mut log, 4, &synced(0, 9), ALL), 0);
    assert_eq!(append(&mut log, 1, &[5, 0, 0, 0], ALL), 0);
    assert_eq!(append(&mut log, 1, &[5, 0, 0, 0], ALL), 23);
    assert_eq!(append(&mut log, 3, &[4, 0, 0, 0], ALL), 23);
    assert_eq!(append(&mut log, 1, &[6, 0, 0, 0], ALL), 0);
    assert_eq!(append(&mut log, 3, &[5, 0, 0, 0], ALL), 23);
    assert_eq!(append(&mut log, 3, &[6, 0, 0, 0], ALL), 0);
    assert_eq!(append(&mut log, 3, &[6, 0, 0, 0], ALL), 23);
    assert_eq!(append(&mut log, 2, &update(0, 1, b""), ALL), 23);
    assert_eq!(check(&log), 0);
}

#[test]
fn layouts_of_bodies() {
    let log = logged(&[begin(1)]);
    let try_out = |kind: u8, body: &[u8]| append(&mut log.clone(), kind, body, ALL);
    for (kind, body, number) in [
        (0, &[1, 0, 0, 0][..], 23),
        (5, &[1, 0, 0, 0], 23),
        (1, &[2, 0, 0], 23),
        (1, &[2, 0, 0, 0, 0], 23),
        (2, &[0, 0], 23),
        (2, &[0, 0, 0], 23),
        (2, &[0, 0, 1], 0),
        (2, &[0, 0, 2], 0),
        (2, &[0, 0, 3], 23),
        (4, &[0; 5], 23),
        (4, &[0; 6], 0),
        (4, &[0; 7], 23),
    ] {
        assert_eq!(try_out(kind, body), number, "{kind} {body:?}");
    }
    assert_eq!(try_out(2, &[1; 65_536]), 23);
    assert_eq!(try_out(2, &[1; 65_535]), 24);
}

#[test]
fn every_cut() {
    let before = logged(&[begin(1)]);
    let body = update(3, 2, b"abc");
    let after = logged(&[begin(1), (2, body.clone())]);
    for stores in 0..=20 {
        let mut log = before.clone();
        let number = append(&mut log, 2, &body, stores);
        assert_eq!(number, if stores < 18 { 26 } else { 0 });
        let whole = if stores < 18 { &before } else { &after };
        assert_eq!(read_back(&log), read_back(whole), "{stores}");
        let body_stored = stores.min(6) as usize;
        assert_eq!(log[2_205..2_205 + body_stored], body[..body_stored]);
        assert_eq!(log[12..23] == before[12..23], stores <= 6, "{stores}");
    }
}

#[test]
fn full() {
    let mut log = vec![0; LOG_LIMIT];
    for transaction in 1..=200u32 {
        assert_eq!(append(&mut log, 1, &transaction.to_le_bytes(), ALL), 0);
    }
    let last = log.clone();
    assert_eq!(append(&mut log, 1, &201u32.to_le_bytes(), 0), 24);
    assert_eq!(append(&mut log, 1, &200u32.to_le_bytes(), 0), 23);
    assert_eq!(log, last);
    let mut log = vec![0; BODIES + 4];
    assert_eq!(append(&mut log, 1, &[1, 0, 0, 0], ALL), 0);
    assert_eq!(append(&mut log, 3, &[1, 0, 0, 0], 0), 24);
    assert_eq!(sum(&[255; 4]), 1_020);
}

#[test]
fn damage() {
    let log = logged(&[begin(1), (2, update(0, 1, b"ab")), commit(1)]);
    for at in (0..34).chain(BODIES..BODIES + 13) {
        let mut damaged = log.clone();
        damaged[at] ^= 0x40;
        assert_eq!(check(&damaged), 23, "byte {at}");
    }
}

/// Two cards, and pairs for both.
fn store() -> (Vec<u8>, [u64; 2]) {
    (fresh(2, 16), [at(1, 1); 2])
}

fn texts(image: &[u8], card: u16) -> (Vec<u8>, Vec<u8>) {
    let layout = Layout::of_sound(V1, image).expect("sound");
    let text = |language| layout.text(image, card, language).expect("a card").to_vec();
    (text(ORIGINAL), text(TRANSLATION))
}

const DONE: Recovered = Recovered { number: 0, line: 0 };

#[test]
fn recovery_applies_committed_updates_in_order() {
    let (mut image, pairs) = store();
    let log = logged(&[
        begin(1),
        (2, update(0, 1, b"one")),
        (2, update(0, 1, b"two")),
        (2, update(0, 2, b"to")),
        commit(1),
        begin(2),
        (2, update(1, 1, b"lost")),
    ]);
    assert_eq!(recover(&log, &mut image, &pairs, &pairs), DONE);
    assert_eq!(texts(&image, 0), (b"two".to_vec(), b"to".to_vec()));
    assert_eq!(texts(&image, 1), (vec![], vec![]));
    let once = texts(&image, 0);
    assert_eq!(recover(&log, &mut image, &pairs, &pairs), DONE);
    assert_eq!(texts(&image, 0), once);
}

#[test]
fn synced_records_count_wherever_they_stand() {
    let (image, pairs) = store();
    for (transaction, applied) in [(1, true), (2, false), (3, false)] {
        let log = logged(&[
            (4, synced(0, transaction)),
            begin(2),
            (2, update(0, 1, b"x")),
            commit(2),
        ]);
        let mut image = image.clone();
        assert_eq!(recover(&log, &mut image, &pairs, &pairs), DONE);
        assert_eq!(texts(&image, 0).0 == b"x", applied, "{transaction}");
    }
}

#[test]
fn recovery_stops_at_the_first_refusal() {
    let (image, pairs) = store();
    let log = logged(&[
        begin(1),
        (2, update(0, 1, b"kept")),
        (2, update(0, 1, &[7; 17])),
        (2, update(0, 1, b"never")),
        commit(1),
    ]);
    let mut now = image.clone();
    assert_eq!(
        recover(&log, &mut now, &pairs, &pairs),
        Recovered { number: 5, line: 2 }
    );
    assert_eq!(texts(&now, 0).0, b"kept");
    let refused = |number, line| Recovered { number, line };
    // No pair is malformed, and so is a translation where there is no original.
    let mut now = image.clone();
    assert_eq!(recover(&log, &mut now, &[], &[]), refused(1, 1));
    assert_eq!(now, image);
    let translation = logged(&[begin(1), (2, update(1, 2, b"x")), commit(1)]);
    assert_eq!(
        recover(&translation, &mut now, &pairs, &pairs),
        refused(1, 1)
    );
    let beyond = logged(&[begin(1), (2, update(2, 1, b"x")), commit(1)]);
    assert_eq!(
        recover(&beyond, &mut now, &[at(1, 1); 3], &[at(1, 1); 3]),
        refused(2, 1)
    );
    let mut unsound = image.clone();
    unsound[0] = 0;
    assert_eq!(recover(&log, &mut unsound, &pairs, &pairs), refused(9, 1));
    let mut bad = log.clone();
    bad[0] = 201;
    assert_eq!(recover(&bad, &mut now, &pairs, &pairs), refused(23, 0));
    assert_eq!(recover(&empty(), &mut unsound, &pairs, &pairs), DONE);
}

#[test]
fn recovery_keeps_the_stored_mark() {
    let (mut image, pairs) = store();
    let layout = Layout::of_sound(V1, &image).expect("sound");
    let mut entry = layout.entry(&image, 0).expect("card 0");
    entry.mark = Mark::new(5, 7);
    layout.put_entry(&mut image, 0, entry);
    let log = logged(&[begin(1), (2, update(0, 1, b"x")), commit(1)]);
    assert_eq!(recover(&log, &mut image, &pairs, &pairs), DONE);
    let entry = layout.entry(&image, 0).expect("card 0");
    assert_eq!(entry.mark, Mark::new(5, 7));
}
