//! Operations beside a run: recovery, comparing texts, the lock queue and the
//! history engine, by the proved library and by the second program, which is
//! written to be read. They are measured so that none is slow by accident.

use std::hint::black_box;
use std::time::{Duration, Instant};

use crate::clock::time;
use lupaniele::raw;
use second::history::{answer_in, HISTORY_BYTES};
use second::{Answer, CommandFields, Format, Layout, Pair, Place, Queue, QueueAnswer, Recovered};

/// What an operation leaves: its numbers, the first of them 0, and bytes.
type Left = (Vec<u64>, Vec<u8>);

/// An operation made ready, to be done once.
pub trait Ready {
    /// Does it.
    fn work(&mut self);
    /// What it left.
    fn left(&self) -> Left;
}

/// What an operation needs and leaves, the work, and what is told of it.
struct Job<S> {
    state: S,
    work: fn(&mut S),
    left: fn(&S) -> Left,
}

impl<S> Ready for Job<S> {
    fn work(&mut self) {
        (self.work)(&mut self.state);
    }

    fn left(&self) -> Left {
        (self.left)(&self.state)
    }
}

fn job<S: 'static>(state: S, work: fn(&mut S), left: fn(&S) -> Left) -> Box<dyn Ready> {
    Box::new(Job { state, work, left })
}

/// An operation, by the proved library and by the second program.
pub struct Operation {
    /// Its name in the table.
    pub name: &'static str,
    made: [fn() -> Box<dyn Ready>; 2],
}

impl Operation {
    /// It made ready for both, ours first.
    pub fn made(&self) -> [Box<dyn Ready>; 2] {
        self.made.map(|make| make())
    }
}

/// How long the rounds of one operation go on.
const LONG: Duration = Duration::from_millis(250);

/// The best times of every operation in nanoseconds, ours first.
pub fn measured(all: &[Operation]) -> Vec<[f64; 2]> {
    all.iter().map(times).collect()
}

fn times(operation: &Operation) -> [f64; 2] {
    let mut best = [f64::MAX; 2];
    let begun = Instant::now();
    while begun.elapsed() < LONG {
        for (best, mut ready) in best.iter_mut().zip(operation.made()) {
            *best = best.min(time(|| ready.work()));
            black_box(&ready);
        }
    }
    best
}

/// Both do it, and leave the same; where they do not it says so, and ends the
/// program.
pub fn compared_or_exit(all: &[Operation]) {
    for operation in all {
        let left = operation.made().map(|mut ready| {
            ready.work();
            ready.left()
        });
        if left[0] != left[1] || left[0].0[0] != 0 {
            println!(
                "bench: {}: refused, or not the same by both",
                operation.name
            );
            std::process::exit(1);
        }
    }
}

/// Every operation that is measured.
pub fn all() -> Vec<Operation> {
    vec![
        Operation {
            name: "recovery: 60 updates of 31 cards, a log of 16,384 bytes",
            made: [recovery, second_recovery],
        },
        Operation {
            name: "agree: two texts of 255 drops",
            made: [agreement, second_agreement],
        },
        Operation {
            name: "ask for the last of 32 places",
            made: [asking, second_asking],
        },
        Operation {
            name: "leave the first of 32 places",
            made: [leaving, second_leaving],
        },
        Operation {
            name: "history engine: a read behind 199 kept commands",
            made: [history, second_history],
        },
    ]
}

fn stamp(t: u64, desk: u64) -> u64 {
    t << 32 | desk << 16
}

// ---- recovery

const CARDS: u16 = 31;
const ROOM: u16 = 512;

/// A fresh image, a log with a committed transaction of 60 updates, and stamps
/// for every card.
struct Cut {
    image: Vec<u8>,
    log: Vec<u8>,
    stamps: Vec<u64>,
    told: Recovered,
}

fn cut() -> Cut {
    let layout = Layout::new(Format::V1, CARDS.into(), ROOM.into()).expect("a shape by the rules");
    let mut image = vec![0; layout.size()];
    image[..16].copy_from_slice(&layout.header());
    let mut log = vec![0; 16_384];
    let mut append = |kind, body: &[u8]| {
        let number = second::append(&mut log, kind, body, u64::MAX);
        assert_eq!(number, 0, "the log has room");
    };
    append(1, &1_u32.to_le_bytes());
    for update in 0..60_u16 {
        let (card, side) = (update % CARDS, 1 + (update / CARDS) as u8);
        append(2, &[&card.to_le_bytes()[..], &[side], &[7; 200]].concat());
    }
    append(3, &1_u32.to_le_bytes());
    Cut {
        image,
        log,
        stamps: vec![stamp(1, 1); CARDS.into()],
        told: Recovered { number: 1, line: 0 },
    }
}

fn recovered(cut: &Cut) -> Left {
    let told = cut.told;
    (vec![told.number.into(), told.line], cut.image.clone())
}

fn recovery() -> Box<dyn Ready> {
    let work = |cut: &mut Cut| {
        let (log, stamps, line) = (&cut.log, &cut.stamps, &mut cut.told.line);
        cut.told.number = raw::recover(log, &mut cut.image, stamps, stamps, line);
    };
    job(cut(), work, recovered)
}

fn second_recovery() -> Box<dyn Ready> {
    let work = |cut: &mut Cut| {
        cut.told = second::recover(&cut.log, &mut cut.image, &cut.stamps, &cut.stamps);
    };
    job(cut(), work, recovered)
}

// ---- structured texts

/// Two texts that agree, and what was answered.
struct Texts {
    first: Vec<u8>,
    second: Vec<u8>,
    told: (u8, u64),
}

/// 255 drops, in Celsius and in Fahrenheit.
fn texts() -> Texts {
    let (mut first, mut second) = (vec![1, 255], vec![1, 255]);
    for drop in 0..255_u16 {
        let celsius = 1_500 + 5 * drop;
        let fahrenheit = celsius / 5 * 9 + 320;
        first.extend([3, b'C']);
        first.extend(celsius.to_le_bytes());
        second.extend([3, b'F']);
        second.extend(fahrenheit.to_le_bytes());
    }
    Texts {
        first,
        second,
        told: (1, 0),
    }
}

fn agreed(texts: &Texts) -> Left {
    (vec![texts.told.0.into(), texts.told.1], Vec::new())
}

fn agreement() -> Box<dyn Ready> {
    let work = |texts: &mut Texts| {
        texts.told.0 = raw::agree(&texts.first, &texts.second, &mut texts.told.1);
    };
    job(texts(), work, agreed)
}

fn second_agreement() -> Box<dyn Ready> {
    let work = |texts: &mut Texts| {
        texts.told = second::texts::agree(&texts.first, &texts.second);
    };
    job(texts(), work, agreed)
}

// ---- the lock queue

/// A queue in arrays, as the library has it, and what was answered.
struct Arrays {
    queue: raw::Places,
    fields: [u64; 4],
    number: u8,
}

/// The same of the second program.
struct Places {
    places: [Place; 32],
    count: usize,
    largest: Pair,
    told: QueueAnswer,
}

/// A queue of shared entries of different desks, in the first places.
fn places(count: usize) -> Places {
    let own = |at: usize| stamp(at as u64 + 1, at as u64 + 1);
    let place = |at: usize| match at < count {
        true => Place::new(1, own(at), 0),
        false => Place::default(),
    };
    Places {
        places: std::array::from_fn(place),
        count,
        largest: Pair::new(own(count - 1), 0),
        told: QueueAnswer {
            number: 1,
            ..QueueAnswer::default()
        },
    }
}

impl Places {
    fn queue(&mut self) -> Queue<'_> {
        Queue {
            places: &mut self.places,
            count: self.count,
            largest: self.largest,
        }
    }
}

fn arrays(count: usize) -> Arrays {
    let queue = places(count);
    Arrays {
        queue: raw::Places {
            modes: queue.places.map(|place| place.mode),
            s: queue.places.map(|place| place.pair.s),
            x: queue.places.map(|place| place.pair.x),
            kept: [count as u64, queue.largest.s, queue.largest.x],
            places: 32,
        },
        fields: [0; 4],
        number: 1,
    }
}

/// The number, the fields, and of each place the stamps; its modes.
fn by_arrays(told: &Arrays) -> Left {
    let raw::Places { modes, s, x, .. } = &told.queue;
    let numbers = [&[told.number.into()], &told.fields[..], s, x].concat();
    (numbers, modes.to_vec())
}

fn by_places(queue: &Places) -> Left {
    let s = queue.places.map(|place| place.pair.s);
    let x = queue.places.map(|place| place.pair.x);
    let modes = queue.places.map(|place| place.mode);
    let told = queue.told;
    let numbers = [&[told.number.into()], &told.numbers()[..], &s, &x].concat();
    (numbers, modes.to_vec())
}

fn asking() -> Box<dyn Ready> {
    let work = |on: &mut Arrays| {
        let own = stamp(99, 99);
        on.number = on.queue.ask(2, own, own, &mut on.fields);
    };
    job(arrays(31), work, by_arrays)
}

fn second_asking() -> Box<dyn Ready> {
    let work = |queue: &mut Places| {
        queue.told = queue
            .queue()
            .ask(Place::new(2, stamp(99, 99), stamp(99, 99)));
    };
    job(places(31), work, by_places)
}

fn leaving() -> Box<dyn Ready> {
    let work = |on: &mut Arrays| on.number = on.queue.leave(1 << 16, &mut on.fields);
    job(arrays(32), work, by_arrays)
}

fn second_leaving() -> Box<dyn Ready> {
    let work = |queue: &mut Places| queue.told = queue.queue().leave(1 << 16);
    job(places(32), work, by_places)
}

// ---- the history engine

/// A history of 199 accepted commands, the next one, and what was answered.
struct History {
    kept: Box<[u8; HISTORY_BYTES]>,
    used: usize,
    command: Vec<u8>,
    reply: Vec<u8>,
    told: Answer,
    line: [u64; 8],
}

/// A command of that history: writes and reads of every card in turn.
fn command(at: u64) -> Vec<u8> {
    let own = stamp(at + 1, 1);
    let writes = at.is_multiple_of(2);
    let fields = CommandFields {
        act: if writes { 3 } else { 1 },
        mode: 2,
        card: (at / 2 % u64::from(CARDS)) as u16,
        pair: Pair::new(own, own),
        ..CommandFields::default()
    };
    fields.with_payload(if writes { &[7; 100] } else { &[] })
}

fn kept() -> History {
    let mut history = History {
        kept: Box::new([0; HISTORY_BYTES]),
        used: 0,
        command: Vec::new(),
        reply: vec![0; ROOM.into()],
        told: Answer::default(),
        line: [0; 8],
    };
    for at in 0..199 {
        history.command = command(at);
        second_answer(&mut history);
        assert_eq!(history.told.number, 0, "every command is accepted");
    }
    history.command = command(199);
    history
}

fn second_answer(history: &mut History) {
    let (kept, used) = (&mut history.kept[..], &mut history.used);
    let (command, reply) = (&history.command, &mut history.reply);
    history.told = answer_in(kept, used, CARDS, ROOM, command, reply);
}

fn history() -> Box<dyn Ready> {
    let work = |history: &mut History| {
        let (mut used, mut fields) = (history.used as u64, [0; 7]);
        let (kept, command) = (&mut history.kept, &history.command);
        let reply = &mut history.reply;
        let number = raw::history_answer(kept, &mut used, CARDS, ROOM, command, reply, &mut fields);
        history.used = used as usize;
        history.line[0] = number.into();
        history.line[1..].copy_from_slice(&fields);
    };
    let left = |history: &History| {
        let used = history.used as u64;
        ([&history.line[..], &[used]].concat(), history.reply.clone())
    };
    job(kept(), work, left)
}

fn second_history() -> Box<dyn Ready> {
    let left = |history: &History| {
        let (told, used) = (history.told, history.used as u64);
        let numbers = [&[told.number.into()], &told.fields.numbers()[..], &[used]].concat();
        (numbers, history.reply.clone())
    };
    job(kept(), second_answer, left)
}
