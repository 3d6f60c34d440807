//! The checks by themselves, on small lists that are worked out by hand.

use second::random::Random;
use second::{CommandFields, Pair};
use simulate::checks::atomic::Atomic;
use simulate::checks::isolation::Lists;
use simulate::checks::log::{appended, due, read, BEGIN, COMMIT, SYNCED, UPDATE};
use simulate::checks::queue::{Listed, Turn};
use simulate::checks::steps::{self, Seen};
use simulate::checks::{formed, Check, Made};
use simulate::library::{Answer, Library, Proved, Queue};
use story::{Event, Story};

/// The stamp T.desk.0.
fn stamp(time: u64, desk: u64) -> u64 {
    time << 32 | desk << 16
}

/// A verify command of card 0.
fn verify(mode: u8, s: u64, x: u64) -> Vec<u8> {
    let fields = CommandFields {
        act: 5,
        mode,
        pair: Pair::new(s, x),
        ..CommandFields::default()
    };
    fields.to_bytes().to_vec()
}

#[test]
fn the_premise_is_seen_in_either_order() {
    let exclusive = verify(2, stamp(5, 1), stamp(1, 1));
    let shared = |s| verify(1, s, stamp(1, 1));
    for (s, holds) in [(stamp(5, 2), true), (stamp(4, 2), false)] {
        for turned in [false, true] {
            let mut both = [exclusive.clone(), shared(s)];
            if turned {
                both.reverse();
            }
            let mut lists = Lists::default();
            let last = both.map(|bytes| lists.sent(&formed::formed(&bytes).unwrap()));
            assert_eq!(last[0], (true, false));
            assert_eq!(last[1], (holds, true));
        }
    }
    let own = verify(1, stamp(1, 1), stamp(1, 1));
    assert_eq!(
        Lists::default().sent(&formed::formed(&own).unwrap()),
        (true, false)
    );
}

/// Accepted commands in a row: what is said of the last.
fn accepted(list: &[(u8, u64, u64)]) -> Option<bool> {
    let mut lists = Lists::default();
    let mut last = None;
    for (at, (mode, s, x)) in list.iter().enumerate() {
        let bytes = verify(*mode, *s, *x);
        last = lists.accepted(at as u64, &formed::formed(&bytes).unwrap());
    }
    last
}

#[test]
fn isolation_looks_between_two_commands_of_a_session() {
    let (a, b) = ((1, stamp(1, 1), 0), (1, stamp(2, 2), 0));
    let (ax, bx) = ((2, stamp(1, 1), stamp(1, 1)), (2, stamp(2, 2), stamp(2, 2)));
    assert_eq!(accepted(&[a]), None);
    assert_eq!(accepted(&[a, a]), Some(true));
    assert_eq!(accepted(&[a, b, a]), Some(true));
    assert_eq!(accepted(&[a, bx, a]), Some(false));
    assert_eq!(accepted(&[bx, a, a]), Some(true));
    assert_eq!(accepted(&[ax, b, ax]), Some(false));
    assert_eq!(accepted(&[ax, a, ax]), Some(true));
    assert_eq!(accepted(&[a, bx, ax, a]), Some(false));
    assert_eq!(accepted(&[a, ax, a]), Some(true));
}

#[test]
fn a_log_reads_back_and_says_what_is_due() {
    let mut log = vec![0; 2_400];
    let mut append = |kind: u8, body: &[u8]| {
        let (number, after) = appended(&log, kind, body, 1_000);
        log = after;
        number
    };
    assert_eq!(append(UPDATE, &[0, 0, 1, 50]), 23);
    assert_eq!(append(BEGIN, &[7, 0, 0, 0]), 0);
    assert_eq!(append(UPDATE, &[0, 0, 1, 50]), 0);
    assert_eq!(append(COMMIT, &[8, 0, 0, 0]), 23);
    assert_eq!(append(COMMIT, &[7, 0, 0, 0]), 0);
    assert_eq!(append(BEGIN, &[7, 0, 0, 0]), 23);
    assert_eq!(append(BEGIN, &[8, 0, 0, 0]), 0);
    assert_eq!(append(UPDATE, &[1, 0, 2]), 0);
    let lines: Vec<u64> = due(&read(&log).unwrap().records)
        .iter()
        .map(|at| at.line)
        .collect();
    assert_eq!(lines, [1]);
    let (_, synced) = appended(&log, SYNCED, &[0, 0, 9, 0, 0, 0], 1_000);
    assert_eq!(due(&read(&synced).unwrap().records), []);
    // Rule 11.13's example: the line of begin 7.
    assert_eq!(log[1..12], [1, 0x99, 8, 0, 0, 4, 0, 7, 0, 0, 0]);
    log[2_201] ^= 1;
    assert_eq!(read(&log), None);
}

#[test]
fn a_check_that_fails_says_so() {
    let mut store = simulate::checks::store::Store::new(1, 16, true);
    let mut image = store.image.clone();
    let command = verify(1, stamp(1, 1), 0);
    let told = Proved.answer(&mut image, &command, &mut []);
    let mut made = Made::default();
    let wrong = Answer { number: 3, ..told };
    let breach = store
        .clone()
        .judged(&mut made, &command, (&[], &[]), &wrong, &image)
        .unwrap_err();
    assert_eq!(breach.check, Check::Late);
    store
        .judged(&mut made, &command, (&[], &[]), &told, &image)
        .unwrap();
    assert_eq!(made.0[Check::Late as usize], 2);
}

#[test]
fn trials_a_and_b() {
    let top = concat!(
        env!("CARGO_MANIFEST_DIR"),
        "/../../docs/pictures/late-card.txt"
    );
    let story = Story::read(&std::fs::read_to_string(top).unwrap()).unwrap();
    let room = usize::from(story.image.room());
    let mut store = simulate::checks::store::Store::new(1, room, true);
    let numbers = story.events.iter().filter_map(|(_, event)| match event {
        Event::Command { bytes, .. } => {
            let sent = formed::formed(bytes);
            let number = store.number(sent.as_ref(), room);
            store.recovering(&mut Made::default(), bytes).unwrap();
            Some(number)
        }
        _ => None,
    });
    assert_eq!(numbers.collect::<Vec<u8>>(), [0, 0, 0, 0, 0, 0, 3, 0]);
}

/// A command of the random lists: accepted or not, mode, pair.
type Item = (bool, u8, Pair);

fn any_list(random: &mut Random) -> Vec<Item> {
    let any = |random: &mut Random| stamp(random.below(3), 1 + random.below(3));
    let item = |random: &mut Random| {
        let (accepted, mode) = (!random.one_in(4), random.pick(&[1, 2]));
        let x = if random.one_in(3) { 0 } else { any(random) };
        let x = if mode == 2 { any(random) } else { x };
        (accepted, mode, Pair::new(any(random), x))
    };
    (0..random.between(2, 14)).map(|_| item(random)).collect()
}

fn desk((_, mode, pair): Item) -> u32 {
    formed::desk_of(formed::own(mode, pair))
}

/// Rule 9.5, word for word: each shared command against each exclusive one.
fn premise(list: &[Item]) -> bool {
    let of = |wanted: u8| list.iter().filter(move |item| item.1 == wanted);
    of(1).all(|(_, _, shared)| {
        let carries = shared.x != 0 && formed::desk_of(shared.x) != formed::desk_of(shared.s);
        let mut under = of(2).filter(|(_, _, pair)| pair.x == shared.x);
        !carries || under.all(|(_, _, pair)| shared.s > pair.s)
    })
}

/// Rule 9.6's end, word for word: what stands between each two of a session.
fn isolated(list: &[Item]) -> bool {
    let list: Vec<Item> = list.iter().copied().filter(|item| item.0).collect();
    let intrudes = |a: Item, b: Item| desk(a) != desk(b) && (a.1 == 2 || b.1 == 2);
    (0..list.len()).all(|last| {
        let mut firsts = (0..last).filter(|first| list[*first] == list[last]);
        firsts.all(|first| {
            let mut between = list[first + 1..last].iter();
            !between.any(|item| intrudes(*item, list[last]))
        })
    })
}

#[test]
fn one_look_at_each_command_says_what_the_rules_say_of_the_list() {
    let mut random = Random::new(9);
    let mut seen = [0; 4];
    for _ in 0..20_000 {
        let list = any_list(&mut random);
        let mut lists = Lists::default();
        let (mut kept, mut alone) = (true, true);
        for (at, (accepted, mode, pair)) in list.iter().enumerate() {
            let bytes = verify(*mode, pair.s, pair.x);
            let sent = formed::formed(&bytes).unwrap();
            kept = lists.sent(&sent).0;
            if *accepted {
                alone &= lists.accepted(at as u64, &sent).unwrap_or(true);
            }
        }
        assert_eq!(
            (kept, alone),
            (premise(&list), isolated(&list)),
            "{list:x?}"
        );
        seen[usize::from(kept) * 2 + usize::from(alone)] += 1;
    }
    assert!(seen.iter().all(|count| *count > 100), "{seen:?}");
}

/// A log of records: kind and body.
fn log_of(records: &[(u8, &[u8])]) -> Vec<u8> {
    let mut log = vec![0; 2_600];
    for (kind, body) in records {
        assert_eq!(Proved.append(&mut log, *kind, body, 99), 0);
    }
    log
}

/// Begin 7; the original and the translation of card 0.
const OPEN: [(u8, &[u8]); 3] = [
    (BEGIN, &[7, 0, 0, 0]),
    (UPDATE, b"\0\0\x01205"),
    (UPDATE, b"\0\0\x02401"),
];

/// The check that a read of card 0 breaks: its act, its number, what it shows.
fn read_breaks(beside: &mut Atomic, act: u8, number: u8, text: &[u8]) -> Option<Check> {
    let fields = CommandFields {
        act,
        mode: 1,
        pair: Pair::new(stamp(1, 1), 0),
        ..CommandFields::default()
    };
    let bytes = fields.to_bytes();
    let answer = Answer {
        number,
        fields: [0, 0, 0, 0, 1, 1, text.len() as u64],
    };
    let sent = formed::formed(&bytes).unwrap();
    let judged = beside.judged(&mut Made::default(), &sent, &answer, text);
    judged.err().map(|breach| breach.check)
}

#[test]
fn a_commit_is_one_step_in_the_store_beside() {
    let mut beside = Atomic::new(1, 16, true);
    let mut log = log_of(&OPEN);
    beside.logged(5, &log);
    for stores in [0, 4, 15] {
        assert_eq!(Proved.append(&mut log, COMMIT, &[7, 0, 0, 0], stores), 26);
        beside.logged(5, &log);
        assert_eq!(read_breaks(&mut beside, 1, 0, b""), None);
        assert_eq!(read_breaks(&mut beside, 2, 6, b""), None);
        assert_eq!(
            read_breaks(&mut beside, 1, 0, b"205"),
            Some(Check::ReadsMeant)
        );
    }
    assert_eq!(Proved.append(&mut log, COMMIT, &[7, 0, 0, 0], 16), 0);
    beside.logged(5, &log);
    assert_eq!(read_breaks(&mut beside, 1, 0, b"205"), None);
    assert_eq!(read_breaks(&mut beside, 2, 0, b"401"), None);
    assert_eq!(read_breaks(&mut beside, 1, 0, b""), Some(Check::ReadsMeant));
    assert_eq!(
        read_breaks(&mut beside, 2, 6, b""),
        Some(Check::ReadsCurrent)
    );
}

#[test]
fn a_card_stands_as_it_is_meant_once_what_is_due_is_applied() {
    let mut image = vec![0; 80];
    assert_eq!(Proved.make(&mut image, 1, 16), 0);
    let mut beside = Atomic::new(1, 16, true);
    beside.logged(5, &log_of(&OPEN));
    let mut stands = |beside: &mut Atomic, mark: u8| {
        image[16 + 16] = mark;
        let stands = beside.stands(&mut Made::default(), &image, 0);
        stands.err().map(|breach| breach.check)
    };
    assert_eq!(stands(&mut beside, 0), None);
    let committed = [&OPEN[..], &[(COMMIT, &[7, 0, 0, 0])]].concat();
    beside.logged(5, &log_of(&committed));
    assert_eq!(stands(&mut beside, 5), None);
    assert_eq!(stands(&mut beside, 0), Some(Check::Meant));
    assert_eq!(stands(&mut beside, 6), Some(Check::Meant));
    let synced = [&committed[..], &[(SYNCED, &[0, 0, 7, 0, 0, 0])]].concat();
    beside.logged(5, &log_of(&synced));
    assert_eq!(stands(&mut beside, 5), Some(Check::Meant));
}

#[test]
fn each_row_of_the_next_step() {
    let open = log_of(&OPEN);
    let committed = [&OPEN[..], &[(COMMIT, &[7, 0, 0, 0])]].concat();
    let committed = log_of(&committed);
    let seen = |mark, prepared, reach| {
        Some(Seen {
            mark,
            prepared,
            reach,
        })
    };
    let rows = [
        (&open, 0, true, None, (steps::BAD, 0, 0)),
        (&open, 5, true, None, (steps::LOOK, 0, 0)),
        (&committed, 5, false, seen(0, false, 0), (steps::NOTE, 0, 7)),
        (&committed, 5, false, seen(6, false, 0), (steps::NOTE, 0, 7)),
        (&committed, 5, true, seen(5, true, 0), (steps::WRITE, 1, 0)),
        (&committed, 5, true, seen(5, false, 2), (steps::WRITE, 2, 0)),
        (
            &committed,
            5,
            true,
            seen(5, false, 3),
            (steps::RELEASE, 0, 0),
        ),
        (&open, 5, true, seen(0, false, 0), (steps::PREPARE, 0, 0)),
        (&open, 5, true, seen(6, false, 0), (steps::WAIT, 0, 0)),
        (&open, 5, true, seen(5, true, 0), (steps::READY, 0, 0)),
        (&open, 5, true, seen(5, false, 0), (steps::RELEASE, 0, 0)),
        (&open, 5, false, seen(5, true, 0), (steps::RELEASE, 0, 0)),
        (&open, 5, false, seen(0, false, 0), (steps::NOTHING, 0, 0)),
    ];
    for (log, desk, going, seen, step) in rows {
        assert_eq!(steps::next(log, (desk, 0), going, seen), step);
        let numbers = Seen::numbers(seen);
        assert_eq!(Proved.next_step(log, (desk, 0), going, &numbers), step);
    }
}

#[test]
fn a_queue_is_by_its_own_requests_alone() {
    let mut queue = Queue {
        modes: [0; 32],
        s: [0; 32],
        x: [0; 32],
        kept: [0; 3],
        places: 4,
    };
    let (mut listed, mut made) = (Listed::default(), Made::default());
    let pair = Pair::new(stamp(1, 1), 0);
    assert_eq!(Proved.ask(&mut queue, 1, pair).number, 0);
    let asked = Turn::Ask(1, pair);
    assert_eq!(listed.turned(&mut made, asked, 0, &queue), Ok(()));
    // Another manager's largest pair comes in.
    queue.kept[2] = stamp(9, 2);
    let told = listed.turned(&mut made, asked, 12, &queue);
    assert_eq!(told.err().map(|breach| breach.check), Some(Check::OwnQueue));
}
