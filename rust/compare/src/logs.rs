//! Redo logs and recovery: histories of appends cut at every store, full and
//! damaged logs, any bytes; after each, recovery by both.

use std::collections::BTreeMap;

use lupaniele::raw;
use second::generate::{self, early_stamp, valid_stamp};
use second::log::{ReadBack, Record, BODIES, LINE_BYTES, LOG_LIMIT, OTHER_STORES, RECORDS};
use second::random::Random;
use second::recovery::recover_by;
use second::short::fresh;
use second::steps::{self, Next, Seen};
use second::Format::V1;
use second::{read_back, Language, Layout, Recovered};

use crate::answers::answer;
use crate::coverage::{Kind, Run};
use crate::demand3::Event;
use crate::images;
use crate::lists::sentences;
use crate::proved::UNWRITTEN;
use crate::run::{bytes, same, Compared};
use crate::sessions::Desks;

/// The proved check of a log.
fn proved_check(log: &[u8]) -> u8 {
    raw::log_check(log)
}

/// The proved append.
pub fn proved_append(log: &mut [u8], kind: u8, body: &[u8], stores: u64) -> u8 {
    raw::log_append(log, kind, body, stores)
}

/// The proved recovery.
pub fn proved_recover(log: &[u8], image: &mut [u8], s: &[u64], x: &[u64]) -> Recovered {
    let mut line = UNWRITTEN;
    let number = raw::recover(log, image, s, x, &mut line);
    Recovered { number, line }
}

/// What a desk has seen of a card, as the proved library has it.
fn in_numbers(seen: Seen) -> [u16; 4] {
    [
        u16::from(seen.known),
        u16::from(seen.held),
        seen.mark,
        seen.reach,
    ]
}

/// The proved next step.
fn proved_next(log: &[u8], desk: u16, card: u16, going: bool, seen: &[u16; 4]) -> Next {
    let (mut line, mut transaction) = (UNWRITTEN, UNWRITTEN);
    let step = raw::next_step(log, desk, card, going, seen, &mut line, &mut transaction);
    Next {
        step,
        line,
        transaction,
    }
}

/// A record to be appended: its kind and its body.
type Append = (u8, Vec<u8>);

/// The pairs that recovery is given: s and x by card.
type Pairs = (Vec<u64>, Vec<u64>);

/// The bodies of the four kinds.
fn begin(transaction: u32) -> Append {
    (1, transaction.to_le_bytes().to_vec())
}

fn update(card: u16, side: u8, text: &[u8]) -> Append {
    (2, [&card.to_le_bytes()[..], &[side], text].concat())
}

fn commit(transaction: u32) -> Append {
    (3, transaction.to_le_bytes().to_vec())
}

fn synced(card: u16, transaction: u32) -> Append {
    let card = card.to_le_bytes();
    (4, [&card[..], &transaction.to_le_bytes()].concat())
}

/// Some of everything.
pub fn any(run: &mut Run, random: &mut Random) -> Compared<()> {
    cut_everywhere(run, random)?;
    limits(run, random)?;
    damaged(run, random)?;
    any_bytes(run, random)?;
    mixed(run, random)
}

// ---- one call by both

fn check(run: &mut Run, log: &[u8]) -> Compared<u8> {
    let (proved, second) = (proved_check(log), second::check(log));
    same("check of a log", proved, second, || bytes("log", log))?;
    run.number(proved);
    Ok(proved)
}

/// Appends by both and compares number and log.
fn append(run: &mut Run, log: &mut Vec<u8>, record: &Append, stores: u64) -> Compared<u8> {
    let (lent, (kind, body)) = (log.clone(), record);
    let mut second_log = lent.clone();
    let input = || {
        bytes("log", &lent) + &bytes("body", body) + &format!("  kind {kind}, stores {stores}\n")
    };
    let proved = proved_append(log, *kind, body, stores);
    let second = second::append(&mut second_log, *kind, body, stores);
    same("append", proved, second, input)?;
    same("log after", &*log, &second_log, input)?;
    run.number(proved);
    let at = [0, 23, 24, 26].iter().position(|number| *number == proved);
    run.seen_at(Kind::Appends, at.unwrap_or(0));
    Ok(proved)
}

/// Recovers by both and compares number, line and image; an answer is from
/// the list, and its line is 0 exactly with 0 and 23.
fn recover(run: &mut Run, log: &[u8], image: &mut [u8], pairs: &Pairs) -> Compared<Recovered> {
    let (lent, (s, x)) = (image.to_vec(), pairs);
    let mut second_image = lent.clone();
    let input =
        || bytes("log", log) + &bytes("image", &lent) + &format!("  s {s:x?}\n  x {x:x?}\n");
    let proved = proved_recover(log, image, s, x);
    let second = second::recover(log, &mut second_image, s, x);
    same("recovery", proved, second, input)?;
    same("image after recovery", &*image, &second_image[..], input)?;
    let quiet = matches!(proved.number, 0 | 23);
    same("line 0", proved.line == 0, quiet, input)?;
    run.number(proved.number);
    let numbers = [0, 1, 2, 3, 5, 7, 9, 17, 23];
    let at = numbers.iter().position(|number| *number == proved.number);
    let none = || Err(format!("recovery answered {}\n{}", proved.number, input()));
    at.map_or_else(none, |at| {
        run.seen_at(Kind::Recoveries, at);
        Ok(proved)
    })
}

/// Next steps for some desk and card of a log by both, after answers of all
/// kinds, and a log that begins again.
fn next_steps(run: &mut Run, random: &mut Random, log: &[u8], cards: u16) -> Compared<()> {
    for _ in 0..3 {
        let desk = random.pick(&[0, 1, 1, 1, 2, 65_535]);
        let card = random.below(u64::from(cards) + 1) as u16;
        let other = random.number() as u16;
        let mark = random.pick(&[0, desk, desk, other]);
        let lines = u64::from(log.first().copied().unwrap_or(0));
        let within = random.below(lines + 1) as u8;
        let line = random.pick(&[0, within, 255]);
        let (step, number) = (
            random.below(9) as u8,
            random.pick(&[0, 0, 0, 1, 2, 3, 4, 9, 17]),
        );
        let going = !random.one_in(4);
        let seen = heard(run, step, line, number, mark)?;
        let input = || {
            bytes("log", log) + &format!("  desk {desk}, card {card}, going {going}, {seen:?}\n")
        };
        let numbers = in_numbers(seen);
        let proved = proved_next(log, desk, card, going, &numbers);
        let second = steps::next_step(log, desk, card, going, seen);
        same("next step", proved, second, input)?;
        run.seen_at(Kind::Steps, usize::from(proved.step));
    }
    let (mut proved, mut second) = (log.to_vec(), log.to_vec());
    let again = raw::log_begin_again(&mut proved);
    same(
        "begins again",
        again,
        steps::begin_again(&mut second),
        || bytes("log", log),
    )?;
    same("log begun again", &proved, &second, || bytes("log", log))?;
    let bad = usize::from(second::check(log) != 0);
    run.seen_at(Kind::BegunAgain, usize::from(!again) + bad);
    Ok(())
}

/// What an answer to a step tells, by both.
fn heard(run: &mut Run, step: u8, line: u8, number: u8, mark: u16) -> Compared<Seen> {
    let mut numbers = [0x5a5a; 4];
    raw::heard(step, line, number, mark, &mut numbers);
    let second = steps::heard(step, line, number, mark);
    same("what is seen", numbers, in_numbers(second), || {
        format!("  step {step}, line {line}, number {number}, mark {mark}\n")
    })?;
    let tells = [
        !second.known,
        second.held,
        second.reach > 0 && line < 255,
        second.reach > 0,
        true,
    ];
    let at = tells.iter().position(|&so| so);
    run.seen_at(Kind::Heard, at.unwrap_or(0));
    Ok(second)
}

// ---- histories

/// What a history that mostly keeps the order of transactions does next.
fn next(random: &mut Random, read: &ReadBack, cards: u16) -> Append {
    let last = read.records.last().map_or(0, |logged| logged.transaction);
    let open = read
        .records
        .iter()
        .rev()
        .find_map(|logged| match logged.record {
            Record::Begin(_) => Some(true),
            Record::Commit(_) => Some(false),
            _ => None,
        });
    let beyond = u64::from(random.one_in(9));
    let card = random.below(u64::from(cards) + beyond) as u16;
    match (open.unwrap_or(false), random.below(16)) {
        (_, 0) => synced(card, random.between(0, u64::from(last) + 1) as u32),
        (_, 1) => any_record(random, last),
        (_, 2) | (false, _) => begin(last.saturating_add(random.pick(&[1, 1, 3]))),
        (true, 3..=6) => commit(last),
        (true, _) => {
            let length = random.index(18);
            update(card, random.pick(&[1, 1, 2]), &random.bytes(length))
        }
    }
}

/// A record near the edges of its layout and of the order.
fn any_record(random: &mut Random, last: u32) -> Append {
    let near = random.pick(&[
        0,
        last,
        last.saturating_sub(1),
        last.saturating_add(1),
        u32::MAX,
    ]);
    let (kind, mut body) = match random.below(5) {
        0 => begin(near),
        1 => commit(near),
        2 => synced(0, near),
        3 => update(0, random.pick(&[0, 1, 2, 3, 255]), b"x"),
        _ => {
            let length = random.index(8);
            (random.byte(), random.bytes(length))
        }
    };
    match random.below(4) {
        0 => drop(body.pop()),
        1 => body.push(random.byte()),
        _ => {}
    }
    (kind, body)
}

/// Pairs for an image: near the stored ones, or older, or missing.
fn pairs_for(random: &mut Random, image: &[u8]) -> Pairs {
    let layout = Layout::of_header(V1, image);
    let cards = layout.map_or(1, Layout::cards) as u16;
    let mut pairs = Pairs::default();
    for card in 0..=cards {
        let stored = layout.and_then(|layout| layout.entry(image, card));
        let stored = stored.unwrap_or_default().pair;
        let newer = stored.larger(second::Pair::new(early_stamp(random), early_stamp(random)));
        let more = random.pick(&generate::NEAR_LIMIT);
        let pair = match random.below(12) {
            0 => stored,
            1 => second::Pair::new(random.pick(&[0, 1]), 0),
            2 => second::Pair::new(0, valid_stamp(random)),
            3 => stored.larger(second::Pair::new(valid_stamp(random), valid_stamp(random))),
            4 => second::Pair::new(newer.s, generate::ahead(random, stored.x, more)),
            _ => newer,
        };
        pairs.0.push(pair.s);
        pairs.1.push(pair.x);
    }
    if random.one_in(6) {
        pairs.0.truncate(random.index(pairs.0.len()));
    }
    if random.one_in(6) {
        pairs.1.truncate(random.index(pairs.1.len()));
    }
    pairs
}

/// A history of appends from an empty log, then a cut at every store of the
/// whole, and recovery.
fn cut_everywhere(run: &mut Run, random: &mut Random) -> Compared<()> {
    let image = generate::sound_image(V1, random);
    let cards = Layout::of_header(V1, &image).map_or(1, Layout::cards) as u16;
    let pairs = pairs_for(random, &image);
    let start = vec![0; random.between(BODIES as u64 + 20, BODIES as u64 + 200) as usize];
    let mut log = start.clone();
    let mut history: Vec<(Append, Option<usize>)> = Vec::new();
    for _ in 0..random.between(3, 14) {
        let record = next(random, &read_back(&log).unwrap_or_default(), cards);
        let needed = record.1.len() + OTHER_STORES;
        let number = append(run, &mut log, &record, needed as u64)?;
        history.push((record, (number == 0).then_some(needed)));
    }
    let stores: usize = history.iter().filter_map(|(_, needed)| *needed).sum();
    for cut in 0..=stores {
        let (log, wholly) = cut_log(run, &start, &history, cut)?;
        next_steps(run, random, &log, cards)?;
        let mut recovered = image.clone();
        let told = recover(run, &log, &mut recovered, &pairs)?;
        if told.number == 0 {
            texts(run, &wholly, &image, &recovered)?;
            twice(run, random, &log, &mut recovered)?;
        }
    }
    Ok(())
}

/// The log after the first `cut` stores of a history, and the records that
/// were wholly appended. What is read back are those records.
fn cut_log(
    run: &mut Run,
    start: &[u8],
    history: &[(Append, Option<usize>)],
    cut: usize,
) -> Compared<(Vec<u8>, Vec<Append>)> {
    let (mut log, mut left, mut wholly) = (start.to_vec(), cut, Vec::new());
    for (record, needed) in history {
        let Some(needed) = *needed else {
            append(run, &mut log, record, left as u64)?;
            continue;
        };
        let before = log.clone();
        let number = append(run, &mut log, record, left as u64)?;
        if left < needed {
            let (body, all) = (record.1.len(), needed);
            let at = [left <= body, left < all - 1, true]
                .iter()
                .position(|&so| so);
            run.seen_at(Kind::Cuts, at.unwrap_or(0));
            same(
                "cut append",
                (number, read_back(&log)),
                (26, read_back(&before)),
                || bytes("log", &before) + &bytes("body", &record.1),
            )?;
            break;
        }
        left -= needed;
        wholly.push(record.clone());
    }
    let read = read_back(&log).map(|read| read.records.len());
    same("records read back", read, Some(wholly.len()), || {
        bytes("log", &log)
    })?;
    Ok((log, wholly))
}

/// The texts after a recovery that answers 0 are those of the committed
/// transactions among these records, worked out from the records alone.
fn texts(run: &mut Run, records: &[Append], before: &[u8], after: &[u8]) -> Compared<()> {
    let word = |body: &[u8], at: usize| {
        u32::from_le_bytes([body[at], body[at + 1], body[at + 2], body[at + 3]])
    };
    let card_of = |body: &[u8]| u16::from_le_bytes([body[0], body[1]]);
    let (mut open, mut pending) = (0, Vec::new());
    let mut committed: Vec<(u32, &[u8])> = Vec::new();
    let mut synced = Vec::new();
    for (kind, body) in records {
        match kind {
            1 => (open, pending) = (word(body, 0), Vec::new()),
            2 => pending.push((open, &body[..])),
            3 => committed.append(&mut pending),
            _ => synced.push((card_of(body), word(body, 2))),
        }
    }
    let mut last = BTreeMap::new();
    for (transaction, body) in committed {
        let card = card_of(body);
        let done = |&(of, since): &(u16, u32)| of == card && since >= transaction;
        if !synced.iter().any(done) {
            last.insert((card, body[2]), &body[3..]);
        }
    }
    let Some(layout) = Layout::of_header(V1, after) else {
        return Err("no image after a recovery".into());
    };
    for card in 0..layout.cards() as u16 {
        for (side, language) in [(1, Language::Original), (2, Language::Translation(0))] {
            let written = last.get(&(card, side)).copied();
            run.seen_at(Kind::RecoveredTexts, usize::from(written.is_none()));
            let expected = written.or_else(|| layout.text(before, card, language));
            let found = layout.text(after, card, language);
            same("text after recovery", found, expected, || {
                bytes("before", before) + &format!("  card {card}, side {side}\n")
            })?;
        }
    }
    Ok(())
}

/// A second recovery, under other pairs: the same texts, if it answers 0.
fn twice(run: &mut Run, random: &mut Random, log: &[u8], image: &mut [u8]) -> Compared<()> {
    let once = image.to_vec();
    let pairs = pairs_for(random, image);
    if recover(run, log, image, &pairs)?.number != 0 {
        return Ok(());
    }
    let Some(layout) = Layout::of_header(V1, image) else {
        return Ok(());
    };
    for card in 0..layout.cards() as u16 {
        for language in [Language::Original, Language::Translation(0)] {
            let text = |image| layout.text(image, card, language);
            same("texts after two", text(image), text(&once), || {
                bytes("log", log)
            })?;
        }
    }
    run.seen(Kind::RecoveredTwice);
    Ok(())
}

// ---- full logs

/// Logs filled up: to 200 records, or until a body finds no room.
fn limits(run: &mut Run, random: &mut Random) -> Compared<()> {
    let length = random.pick(&[LOG_LIMIT, BODIES + 3_000, BODIES + 400]);
    let mut log = vec![0; length];
    let image = generate::sound_image_of(V1, random, 3, 16);
    loop {
        let read = read_back(&log).unwrap_or_default();
        let by_room = read.records.len() < RECORDS;
        let record = next(random, &read, 3);
        if append(run, &mut log, &record, u64::MAX)? == 24 {
            run.seen_at(Kind::FullLogs, usize::from(by_room));
            append(run, &mut log, &record, 0)?;
            break;
        }
    }
    recover(run, &log, &mut image.clone(), &pairs_for(random, &image))?;
    next_steps(run, random, &log, 3)?;
    roomy(run, random)
}

/// A body that just fits, and one byte more; bodies of 65,535 and 65,536.
fn roomy(run: &mut Run, random: &mut Random) -> Compared<()> {
    let room = random.pick(&[7, 40, 300, LOG_LIMIT - BODIES - 4]);
    let mut log = vec![0; BODIES + 4 + room];
    append(run, &mut log, &begin(1), u64::MAX)?;
    for (length, number) in [(room, 0), (room + 1, 24), (65_535, 24), (65_536, 23)] {
        let record = update(0, 1, &vec![random.byte(); length - 3]);
        let mut log = log.clone();
        let stores = (length + OTHER_STORES) as u64;
        let told = append(run, &mut log, &record, stores)?;
        same("room", told, number, || {
            format!("  room {room}, body {length}\n")
        })?;
        check(run, &log)?;
        run.seen_at(
            Kind::Rooms,
            usize::from(number != 0) + usize::from(number == 23),
        );
    }
    Ok(())
}

// ---- damaged logs and any bytes

/// A log of some records with each byte of the count, the lines and the
/// bodies changed in turn.
fn damaged(run: &mut Run, random: &mut Random) -> Compared<()> {
    let image = generate::sound_image(V1, random);
    let pairs = pairs_for(random, &image);
    let mut log = vec![0; BODIES + 120];
    for _ in 0..random.between(3, 8) {
        let record = next(random, &read_back(&log).unwrap_or_default(), 2);
        append(run, &mut log, &record, u64::MAX)?;
    }
    let lines = usize::from(log[0]) * LINE_BYTES;
    for at in (0..1 + lines + LINE_BYTES).chain(BODIES..log.len()) {
        let mut damaged = log.clone();
        damaged[at] ^= random.pick(&[1, 2, 0x80, 0xff]);
        let number = check(run, &damaged)?;
        recover(run, &damaged, &mut image.clone(), &pairs)?;
        append(run, &mut damaged, &commit(1), random.below(20))?;
        match (number, at) {
            (0, _) => run.seen(Kind::StillGood),
            (_, 0) => run.seen(Kind::LogCount),
            (_, at) if at < BODIES => run.seen_at(Kind::LogLines, (at - 1) % LINE_BYTES),
            _ => run.seen(Kind::LogBodies),
        }
    }
    let mut unsound = image.clone();
    let at = random.index(unsound.len());
    unsound[at] ^= 1 << random.below(8);
    recover(run, &log, &mut unsound, &pairs)?;
    for length in [
        0,
        1,
        1 + lines,
        BODIES - 1,
        BODIES,
        LOG_LIMIT,
        LOG_LIMIT + 1,
    ] {
        let mut other = log.clone();
        other.resize(length, 0);
        check(run, &other)?;
        append(run, &mut other, &begin(u32::MAX), 16)?;
        let sort = usize::from(length >= BODIES) + usize::from(length > LOG_LIMIT);
        run.seen_at(Kind::LogLengths, sort);
    }
    Ok(())
}

/// Any bytes at all, as log, image and pairs.
fn any_bytes(run: &mut Run, random: &mut Random) -> Compared<()> {
    for _ in 0..4 {
        let length = random.pick(&[0, 1, 2_200, 2_201, 2_300, 65_536]);
        let mut log = random.bytes(length);
        if let Some(count) = log.first_mut() {
            *count = random.pick(&[0, 0, 1, 2, 200, 201, 255]);
        }
        let length = random.index(300);
        let mut image = random.bytes(length);
        let (few, many) = (random.index(4), random.index(4));
        let pairs = (
            (0..few).map(|_| random.number()).collect(),
            (0..many).map(|_| random.number()).collect(),
        );
        check(run, &log)?;
        recover(run, &log, &mut image, &pairs)?;
        next_steps(run, random, &log, 2)?;
        let record = any_record(random, 1);
        let stores = random.below(30);
        append(run, &mut log, &record, stores)?;
        run.seen(Kind::AnyLogs);
    }
    Ok(())
}

// ---- recoveries among ordinary commands

/// A list from a fresh image with recoveries in between: the image after a
/// recovery is the one after its writes, sent one by one, and demand 3 holds
/// of all of them in one list.
fn mixed(run: &mut Run, random: &mut Random) -> Compared<()> {
    let large = random.one_in(5);
    let (cards, room) = match large {
        true => random.pick(&generate::large(V1)),
        false => random.pick(&[(1, 16), (2, 16)]),
    };
    let mut image = vec![0xee; fresh(cards, room).len()];
    images::make(run, &mut image, cards, room)?;
    let mut desks = Desks::new(V1, true);
    let mut events = Vec::new();
    for _ in 0..random.between(2, 5) {
        for _ in 0..random.between(2, 8) {
            let command = desks.command(random, &image);
            let mut reply = vec![0; room as usize];
            let told = answer(run, &mut image, &command, &mut reply)?;
            events.push(Event::new(
                V1,
                &command,
                vec![0; room as usize],
                told,
                &reply,
            ));
        }
        let mut log = vec![0; BODIES + 100];
        for _ in 0..random.between(3, 7) {
            let record = next(random, &read_back(&log).unwrap_or_default(), cards as u16);
            append(run, &mut log, &record, u64::MAX)?;
        }
        let pairs = pairs_for(random, &image);
        recovery_by_requests(run, &log, &mut image, &pairs, &mut events)?;
    }
    if large {
        run.seen_at(Kind::LargeLists, 2);
    }
    sentences(run, cards as u16, &events)
}

/// One recovery, and its writes as requests.
fn recovery_by_requests(
    run: &mut Run,
    log: &[u8],
    image: &mut [u8],
    pairs: &Pairs,
    events: &mut Vec<Event>,
) -> Compared<()> {
    let mut by_requests = image.to_vec();
    let told = recover(run, log, image, pairs)?;
    let mut failed = None;
    let (s, x) = pairs;
    let again = recover_by(log, &mut by_requests, s, x, |image, command| {
        match answer(run, image, command, &mut []) {
            Ok(told) => {
                events.push(Event::new(V1, command, Vec::new(), told, &[]));
                run.seen_at(Kind::RecoveryWrites, usize::from(told.number != 0));
                told.number
            }
            Err(difference) => {
                failed = Some(difference);
                u8::MAX
            }
        }
    });
    if let Some(difference) = failed {
        return Err(difference);
    }
    let input = || bytes("log", log) + &bytes("image", &by_requests);
    same("recovery by requests", told, again, input)?;
    same("image by requests", &image[..], &by_requests[..], input)
}
