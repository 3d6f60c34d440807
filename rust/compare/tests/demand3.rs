//! The sentences of demand 3 speak: a list that a store could have answered
//! passes, and the same list with one answer or one shown byte changed does
//! not.

use compare::coverage::Run;
use compare::demand3::{holds, Event};
use compare::proved;
use second::short::*;
use second::Pair;

/// What the proved library answers to a list, each with a reply buffer of 16
/// bytes.
fn events(list: &[Vec<u8>]) -> Vec<Event> {
    let mut image = vec![0; 80];
    assert_eq!(proved::make(V1, &mut image, 1, 16), 0);
    let event = |command: &Vec<u8>| {
        let lent = vec![0xaa; 16];
        let mut reply = lent.clone();
        let answer = proved::answer(V1, &mut image, command, &mut reply);
        Event::new(V1, command, lent, answer, &reply)
    };
    list.iter().map(event).collect()
}

/// Writes, reads of both languages, a late command, one that is behind.
fn list() -> Vec<Vec<u8>> {
    vec![
        write_original(a_prime(), b"first"),
        command(READ_ORIGINAL, EXCLUSIVE, a_prime()),
        command(READ_TRANSLATION, EXCLUSIVE, a_prime()),
        write_translation(a_prime(), 1, b"premier"),
        command(READ_TRANSLATION, SHARED, b()),
        command(VERIFY, EXCLUSIVE, b_prime()),
        command(VERIFY, EXCLUSIVE, a_prime()),
        command(READ_TRANSLATION, SHARED, b_prime()),
    ]
}

fn says(events: &[Event]) -> Result<(), String> {
    holds(1, events, &mut Run::default())
}

#[test]
fn what_the_store_answers_passes() {
    let events = events(&list());
    let numbers: Vec<u8> = events.iter().map(|event| event.number).collect();
    assert_eq!(numbers, [0, 0, 6, 0, 0, 0, 3, 0]);
    assert_eq!(says(&events), Ok(()));
}

/// Another number at one place of the list.
fn with_number(at: usize, number: u8) -> Result<(), String> {
    let mut events = events(&list());
    events[at].number = number;
    says(&events)
}

#[test]
fn a_late_command_that_is_not_refused_as_stale() {
    assert!(with_number(6, 0).is_err());
    assert!(with_number(6, 4).is_err());
}

#[test]
fn a_command_in_time_that_is_refused_as_stale() {
    assert!(with_number(5, 3).is_err());
}

#[test]
fn a_translation_behind_that_is_read() {
    assert!(with_number(2, 0).is_err());
}

#[test]
fn a_translation_not_behind_that_is_refused() {
    assert!(with_number(4, 6).is_err());
}

/// A list with reads of a translation at the limit and past it.
fn far_list() -> Vec<Vec<u8>> {
    let read = |time| command(READ_TRANSLATION, SHARED, Pair::new(at(time, 2), at(1, 1)));
    vec![
        write_original(a_prime(), b"first"),
        read(1_000_002),
        read(1_000_001),
        write_translation(a_prime(), 1, b"premier"),
        read(1_000_002),
        read(1_000_001),
        read(2_000_001),
        read(3_000_002),
    ]
}

/// The list past the limit with another number at one place.
fn far_with(at: usize, number: u8) -> Result<(), String> {
    let mut events = events(&far_list());
    events[at].number = number;
    says(&events)
}

#[test]
fn stamps_from_too_far_ahead() {
    let events = events(&far_list());
    let numbers: Vec<u8> = events.iter().map(|event| event.number).collect();
    assert_eq!(numbers, [0, 17, 6, 0, 17, 0, 0, 17]);
    assert_eq!(says(&events), Ok(()));
}

#[test]
fn a_command_from_too_far_ahead_that_is_not_refused_with_17() {
    for number in [0, 3, 4, 6, 8] {
        assert!(far_with(1, number).is_err());
        assert!(far_with(4, number).is_err());
        assert!(far_with(7, number).is_err());
    }
}

#[test]
fn a_command_in_reach_that_is_refused_with_17() {
    for at in [0, 2, 3, 5, 6] {
        assert!(far_with(at, 17).is_err());
    }
}

#[test]
fn another_text_shown() {
    for (at, length) in [(1, 5), (4, 7), (7, 7)] {
        let mut events = events(&list());
        assert_eq!(events[at].length, length);
        events[at].reply[0] ^= 1;
        assert!(says(&events).is_err());
        events[at].reply[0] ^= 1;
        events[at].length -= 1;
        assert!(says(&events).is_err());
        events[at].length = 0;
        assert!(says(&events).is_err());
    }
}

/// Trial d: with the premise broken an exclusive session is not isolated, and
/// the list passes; the same answers with the premise do not.
#[test]
fn an_intruder_between_two_commands_of_one_session() {
    let small = |s| command(VERIFY, SHARED, Pair::new(s, at(1, 1)));
    let own = command(VERIFY, EXCLUSIVE, a_prime());
    let mut events = events(&[own.clone(), small(at(0, 2)), own]);
    assert!(events.iter().all(|event| event.number == 0));
    assert_eq!(says(&events), Ok(()));
    events[1].command = small(at(2, 2));
    assert!(says(&events).is_err());
}

/// A list in which the same desk sends between is not an intrusion.
#[test]
fn the_same_desk_between() {
    let own = command(VERIFY, EXCLUSIVE, a_prime());
    let shared = command(VERIFY, SHARED, a_prime());
    assert_eq!(says(&events(&[own.clone(), shared, own])), Ok(()));
}

/// A verify command with a verifier and an update pair.
fn opens(mode: u8, verifier: Pair, update: Pair) -> Vec<u8> {
    let mut fields = fields(VERIFY, mode, verifier);
    fields.update = update;
    fields.with_payload(b"")
}

/// A command is late by its verifier, whatever its update pair (rule 9.2).
#[test]
fn a_late_verifier_whose_update_pair_is_not_late() {
    let third = Pair::new(at(3, 3), at(3, 3));
    let list = [
        opens(EXCLUSIVE, Pair::default(), b_prime()),
        opens(EXCLUSIVE, a_prime(), third),
        opens(EXCLUSIVE, b_prime(), third),
        opens(SHARED, Pair::new(0, at(3, 3)), third),
    ];
    let told = events(&list);
    let numbers: Vec<u8> = told.iter().map(|event| event.number).collect();
    assert_eq!(numbers, [0, 3, 0, 0]);
    assert_eq!(says(&told), Ok(()));
    for (at, number) in [(1, 0), (2, 3), (3, 3)] {
        let mut told = told.clone();
        told[at].number = number;
        assert!(says(&told).is_err(), "command {at} with {number}");
    }
}

/// Trial d with update pairs: the shared command's verifier has desk 1's
/// stamps. The premise is over update pairs, and is broken; with a larger s in
/// the update pair alone it is not, and the same answers do not pass.
#[test]
fn an_intruder_by_its_update_pair() {
    let shared = |s| {
        opens(
            SHARED,
            Pair::new(at(0, 1), at(1, 1)),
            Pair::new(s, at(1, 1)),
        )
    };
    let own = command(VERIFY, EXCLUSIVE, a_prime());
    let mut events = events(&[own.clone(), shared(at(0, 2)), own]);
    assert!(events.iter().all(|event| event.number == 0));
    assert_eq!(says(&events), Ok(()));
    events[1].command = shared(at(2, 2));
    assert!(says(&events).is_err());
}
