//! The history engine: beside the second program and beside the store on the
//! same lists, from a fresh image to both limits; and on any bytes.

use lupaniele::raw;
use second::generate;
use second::history::{answer_in, History, HISTORY_BYTES, MOST_KEPT, MOST_PAYLOAD};
use second::random::Random;
use second::short::{a_prime, command, fresh, write_original, EXCLUSIVE, VERIFY};
use second::Format::V1;
use second::{Command, CommandFields, Layout, Mark, Pair};

use crate::answers::{answer, reply_near};
use crate::coverage::{Kind, Run};
use crate::proved::{Answer, UNWRITTEN};
use crate::run::{bytes, same, Compared};

/// Lent bytes with a history, how many are used, and N and C.
#[derive(Clone)]
struct Lent {
    bytes: Box<[u8; HISTORY_BYTES]>,
    used: u64,
    cards: u16,
    room: u16,
}

impl Lent {
    /// Bytes of which none is used.
    fn new(random: &mut Random, cards: u16, room: u16) -> Lent {
        Lent {
            bytes: Box::new([random.byte(); HISTORY_BYTES]),
            used: 0,
            cards,
            room,
        }
    }

    /// The history in the bytes, as the second program reads it.
    fn history(&self) -> History {
        History::in_bytes(&self.bytes[..], self.used as usize)
    }

    /// One request to the proved engine.
    fn answer(&mut self, command: &[u8], reply: &mut [u8]) -> Answer {
        let mut fields = [UNWRITTEN; 7];
        let number = raw::history_answer(
            &mut self.bytes,
            &mut self.used,
            self.cards,
            self.room,
            command,
            reply,
            &mut fields,
        );
        Answer { number, fields }
    }
}

/// Answers a command by both engines, and compares number, fields, reply
/// buffer, bytes and how many are used.
fn compared(run: &mut Run, lent: &mut Lent, command: &[u8], reply: &mut [u8]) -> Compared<Answer> {
    let (before, reply_lent) = (lent.clone(), reply.to_vec());
    let input = || {
        let shape = format!(
            "  N {}, C {}, used {}\n",
            before.cards, before.room, before.used
        );
        let kept = &before.bytes[..HISTORY_BYTES.min(before.used as usize)];
        shape + &bytes("kept", kept) + &bytes("command", command) + &bytes("reply", &reply_lent)
    };
    let (mut kept, mut used) = (before.bytes.clone(), before.used as usize);
    let mut second_reply = reply.to_vec();
    let second = answer_in(
        &mut kept[..],
        &mut used,
        lent.cards,
        lent.room,
        command,
        &mut second_reply,
    );
    let proved = lent.answer(command, reply);
    let told = (second.number, second.fields.numbers());
    same(
        "history: answer",
        (proved.number, proved.fields),
        told,
        input,
    )?;
    same("history: used", lent.used, used as u64, input)?;
    same("history: bytes", lent.bytes == kept, true, input)?;
    same("history: reply", &*reply, &second_reply[..], input)?;
    run.number(proved.number);
    note(run, &before.history(), command, proved.number);
    Ok(proved)
}

/// Counts the limits at which a command stands.
fn note(run: &mut Run, before: &History, command: &[u8], number: u8) {
    let Some(command) = Command::parse(V1, command) else {
        return;
    };
    if number == 0 && command.update != command.verifier {
        run.seen(Kind::HistoryOpenings);
    }
    let payload = before.payload() + command.payload.len();
    let (many, long) = (before.count() >= MOST_KEPT, payload > MOST_PAYLOAD);
    match number {
        22 if payload == MOST_PAYLOAD + 1 && !many => run.seen_at(Kind::HistoryEdges, 3),
        0 if before.count() + 1 == MOST_KEPT => run.seen_at(Kind::HistoryEdges, 0),
        0 if payload == MOST_PAYLOAD && !command.payload.is_empty() => {
            run.seen_at(Kind::HistoryEdges, 2)
        }
        _ => {}
    }
    match (number, many, long) {
        (22, true, _) if before.count() == MOST_KEPT => run.seen_at(Kind::HistoryEdges, 1),
        (3..=8 | 17, true, _) | (3..=8 | 17, _, true) => run.seen(Kind::HistoryOrder),
        _ => {}
    }
    if number == 22 {
        run.seen_at(
            Kind::HistoryFull,
            usize::from(many) + 2 * usize::from(long) - 1,
        );
    }
}

/// A command that its card mostly accepts, under the stored pair and mark.
fn willing(random: &mut Random, image: &[u8], length: usize) -> Vec<u8> {
    let layout = Layout::of_header(V1, image);
    let card = random.index(layout.map_or(1, Layout::cards)) as u16;
    let stored = layout.and_then(|layout| layout.entry(image, card));
    let stored = stored.unwrap_or_default();
    let mut own = |stamp: u64| match stamp {
        0 => generate::early_stamp(random),
        _ => stamp,
    };
    let pair = Pair::new(own(stored.pair.s), own(stored.pair.x));
    let act = random.pick(&[1, 2, 3, 3, 3, 4, 4, 5]);
    let later = Pair::new(pair.s, generate::later(random, pair.x));
    let none = Pair::default();
    let fields = CommandFields {
        act,
        mode: 2,
        card,
        pair,
        update: random.pick(&[none, none, none, pair, later]),
        expected: stored.mark,
        next: random.pick(&[Mark::default(), Mark::new(1, 7), Mark::new(2, 9)]),
        edition: match act {
            4 => stored.edition.max(1),
            _ => 0,
        },
        ..CommandFields::default()
    };
    match act {
        3 | 4 => fields.with_payload(&random.bytes(length)),
        _ => fields.with_payload(&[]),
    }
}

/// How many payload bytes the next write has: small ones for a history of many
/// commands, large ones for one of many payload bytes, and near what is left.
fn next_length(random: &mut Random, lent: &Lent) -> usize {
    let room = usize::from(lent.room);
    let left = MOST_PAYLOAD.saturating_sub(lent.history().payload());
    match left <= room && random.one_in(2) {
        true => random.pick(&[left, left + 1, left.saturating_sub(1)]),
        false => random.pick(&[room, room, room - 1, 1, 0]),
    }
}

/// The same request to the store: it answers as the engine did, and accepts
/// what gets the first 22 there (rules 14.10 and 14.11).
fn beside(
    run: &mut Run,
    image: &mut [u8],
    command: &[u8],
    mut reply: Vec<u8>,
    engine: (Answer, &Vec<u8>),
) -> Compared<()> {
    let stored = answer(run, image, command, &mut reply)?;
    let input = || bytes("command", command);
    if engine.0.number == 22 {
        run.seen(Kind::HistoryFirst);
        return same("history: the store at 22", stored.number, 0, input);
    }
    same("history: the store", engine, (stored, &reply), input)
}

/// A list from a fresh image: the engine answers as the store until its first
/// 22, where the store accepts; after that the engines go on alone.
fn list(run: &mut Run, random: &mut Random, cards: u16, room: u16, length: u64) -> Compared<()> {
    let mut image = fresh(cards.into(), room.into());
    let mut lent = Lent::new(random, cards, room);
    let mut plain = History::default();
    let mut full = 0;
    for _ in 0..length {
        let command = match random.one_in(6) {
            true => generate::command(V1, random, &image),
            false => {
                let length = next_length(random, &lent);
                willing(random, &image, length)
            }
        };
        let lent_reply = reply_near(V1, random, &image, &command);
        let mut reply = lent_reply.clone();
        let told = compared(run, &mut lent, &command, &mut reply)?;
        plain.answer(cards, room, &command, &mut lent_reply.clone());
        let input = || bytes("command", &command);
        same("history: kept", &lent.history(), &plain, input)?;
        if full == 0 {
            beside(run, &mut image, &command, lent_reply, (told, &reply))?;
        } else {
            run.seen_at(Kind::HistoryAfter, usize::from(told.number == 0));
        }
        full += u64::from(full > 0 || told.number == 22);
        if full > 20 {
            break;
        }
    }
    run.seen(Kind::HistoryLists);
    Ok(())
}

/// A history in any bytes: a stream, often damaged, with any number of used
/// bytes, any N and C, and a few requests.
fn anywhere(run: &mut Run, random: &mut Random) -> Compared<()> {
    let image = generate::sound_image(V1, random);
    let cards = random.pick(&[0, 1, 2, 3, 128, 129, u16::MAX]);
    let room = random.pick(&[0, 15, 16, 48, 1_025, u16::MAX]);
    let mut lent = Lent::new(random, cards, room);
    let mut stream = generate::stream(V1, random, &image);
    if random.one_in(4) {
        let length = random.pick(&[32_767, 32_768, 32_769, 60_000]);
        stream.extend(willing(random, &image, length));
    }
    stream.truncate(HISTORY_BYTES);
    lent.bytes[..stream.len()].copy_from_slice(&stream);
    let length = stream.len() as u64;
    let near = [0, 52, length.saturating_sub(1), length, length + 1];
    let far = [
        HISTORY_BYTES as u64,
        HISTORY_BYTES as u64 + 1,
        random.number(),
        u64::MAX,
    ];
    lent.used = match random.one_in(2) {
        true => random.pick(&near),
        false => random.pick(&far),
    };
    for _ in 0..4 {
        let beyond = lent.used > HISTORY_BYTES as u64;
        run.seen_at(Kind::HistoryBytes, usize::from(beyond));
        let history = lent.history();
        if history.length() < HISTORY_BYTES.min(lent.used as usize) {
            run.seen_at(Kind::HistoryBytes, 2);
        }
        let command = match random.below(3) {
            0 => generate::command(V1, random, &image),
            1 => {
                let length = random.pick(&[0, 1, 16, 32_767, 32_768, 32_769, u16::MAX.into()]);
                willing(random, &image, length)
            }
            _ => about(random, &history),
        };
        let length = random.index(40);
        let mut reply = random.bytes(length);
        compared(run, &mut lent, &command, &mut reply)?;
    }
    Ok(())
}

/// A history at both limits, which one more write would pass at once.
fn at_both(run: &mut Run, random: &mut Random) -> Compared<()> {
    let mut lent = Lent::new(random, 1, 1_024);
    let verify = command(VERIFY, EXCLUSIVE, a_prime());
    let large = write_original(a_prime(), &random.bytes(1_024));
    let writes = MOST_PAYLOAD / 1_024;
    for at in 0..MOST_KEPT {
        let sent = if at < writes { &large } else { &verify };
        compared(run, &mut lent, sent, &mut [])?;
    }
    let one = write_original(a_prime(), &[7]);
    compared(run, &mut lent, &one, &mut [])?;
    compared(run, &mut lent, &verify, &mut [])?;
    Ok(())
}

/// A command that a kept one's card mostly accepts.
fn about(random: &mut Random, history: &History) -> Vec<u8> {
    let card = random.pick(&[0, 0, 1, 2]);
    let stands = history.entry(card);
    let act = random.pick(&[1, 1, 2, 2, 3, 4, 5]);
    let fields = CommandFields {
        act,
        mode: 2,
        card,
        pair: stands.pair,
        expected: stands.mark,
        edition: match act {
            4 => stands.edition,
            _ => 0,
        },
        ..CommandFields::default()
    };
    fields.with_payload(&[])
}

/// Lists of each sort, and histories in any bytes.
pub fn any(run: &mut Run, random: &mut Random) -> Compared<()> {
    let length = random.between(5, 40);
    let (cards, room) = random.pick(&[(1, 16), (2, 16), (3, 48)]);
    list(run, random, cards, room, length)?;
    if random.one_in(10) {
        let (cards, room) = random.pick(&[(1, 16), (2, 16), (3, 48)]);
        list(run, random, cards, room, 500)?;
    }
    if random.one_in(10) {
        let (cards, room) = random.pick(&[(1, 1_024), (2, 1_024), (4, 512)]);
        list(run, random, cards, room, 500)?;
    }
    if random.one_in(5) {
        let (cards, room) = random.pick(&generate::large(V1));
        list(run, random, cards as u16, room as u16, length)?;
        run.seen_at(Kind::LargeLists, 1);
    }
    if random.one_in(8) {
        at_both(run, random)?;
    }
    for _ in 0..3 {
        anywhere(run, random)?;
    }
    Ok(())
}
