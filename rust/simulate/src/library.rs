//! The proved library as the town calls it: [`Library`] has a method for each
//! exported function that is used, which calls it, and [`Proved`] has them as
//! they are. The tests put wrong answers in between here; nothing else stands
//! between town and library.

pub use lupaniele::raw::Places as Queue;
pub use lupaniele::Lease;

use lupaniele::raw;
use second::{Format, Pair};

/// What a number is set to before a call that must write it.
const UNWRITTEN: u64 = 0x5a5a_5a5a_5a5a_5a5a;

/// The store's answer: the number and the seven reply fields.
#[derive(Clone, Copy, Debug, Default, PartialEq, Eq)]
pub struct Answer {
    /// The number.
    pub number: u8,
    /// The reply fields, in the order of rule 4.8.
    pub fields: [u64; 7],
}

/// The queue's answer.
#[derive(Clone, Copy, Debug, PartialEq, Eq)]
pub struct QueueAnswer {
    /// The number.
    pub number: u8,
    /// Holds (1 or 0), largest s, largest x, entries looked at.
    pub fields: [u64; 4],
}

/// What a desk holds of a card, at its own word (rule 6.1).
#[derive(Clone, Debug, Default, PartialEq, Eq)]
pub struct Held {
    /// The buffers of the original and of the translation.
    pub buffers: [Vec<u8>; 2],
    /// The length of each text.
    pub lengths: [u64; 2],
    /// The edition.
    pub edition: u16,
    /// The edition that the translation was made from.
    pub from: u16,
}

/// The exported functions.
pub trait Library {
    /// Makes a fresh image.
    fn make(&mut self, image: &mut [u8], cards: u64, room: u64) -> u8 {
        raw::make(image, cards, room)
    }

    /// Whether the bytes are a sound image.
    fn sound(&mut self, image: &[u8]) -> bool {
        raw::sound(image)
    }

    /// One request to the store.
    fn answer(&mut self, image: &mut [u8], command: &[u8], reply: &mut [u8]) -> Answer {
        let mut fields = [UNWRITTEN; 7];
        let number = raw::answer(image, command, reply, &mut fields);
        Answer { number, fields }
    }

    /// A desk asks for the lock, or upgrades.
    fn ask(&mut self, queue: &mut Queue, mode: u8, pair: Pair) -> QueueAnswer {
        let mut fields = [UNWRITTEN; 4];
        let number = queue.ask(mode, pair.s, pair.x, &mut fields);
        QueueAnswer { number, fields }
    }

    /// A desk and start leaves.
    fn leave(&mut self, queue: &mut Queue, desk: u32) -> QueueAnswer {
        let mut fields = [UNWRITTEN; 4];
        let number = queue.leave(desk, &mut fields);
        QueueAnswer { number, fields }
    }

    /// A desk that fell silent leaves once its lease is over.
    fn lapse(&mut self, queue: &mut Queue, desk: u32, lease: Lease) -> QueueAnswer {
        let mut fields = [UNWRITTEN; 4];
        let number = queue.lapse(desk, lease, &mut fields);
        QueueAnswer { number, fields }
    }

    /// A desk learns a pair.
    fn learn(&mut self, known: &mut [u64; 2], pair: Pair) {
        raw::learn(known, pair.s, pair.x);
    }

    /// A desk proposes a pair.
    fn propose(
        &mut self,
        (desk, start): (u16, u16),
        known: &mut [u64; 2],
        mode: u8,
        pair: &mut [u64; 2],
    ) -> u8 {
        raw::propose(desk, start, known, mode, pair)
    }

    /// The number, and how many first bytes of the buffer asked for are shown.
    fn shown(&mut self, held: &Held, asked: u8) -> (u8, u64) {
        let mut count = UNWRITTEN;
        let [original, translation] = &held.buffers;
        let number = raw::shown(
            original,
            translation,
            held.lengths[0],
            held.lengths[1],
            held.edition,
            held.from,
            asked,
            &mut count,
        );
        (number, count)
    }

    /// Whether the bytes are a good log.
    fn check_log(&mut self, log: &[u8]) -> u8 {
        raw::log_check(log)
    }

    /// Appends a record, as far as so many stores go.
    fn append(&mut self, log: &mut [u8], kind: u8, body: &[u8], stores: u64) -> u8 {
        raw::log_append(log, kind, body, stores)
    }

    /// Makes a fresh image of version 2.
    fn make_v2(&mut self, image: &mut [u8], cards: u64, room: u64) -> u8 {
        raw::make_v2(image, cards, room)
    }

    /// Whether the bytes are a sound image of version 2.
    fn sound_v2(&mut self, image: &[u8]) -> bool {
        raw::sound_v2(image)
    }

    /// One request to a store of version 2.
    fn answer_v2(&mut self, image: &mut [u8], command: &[u8], reply: &mut [u8]) -> Answer {
        let mut fields = [UNWRITTEN; 7];
        let number = raw::answer_v2(image, command, reply, &mut fields);
        Answer { number, fields }
    }

    /// Whether the bytes are a sound image of a version.
    fn sound_in(&mut self, format: Format, image: &[u8]) -> bool {
        match format {
            Format::V1 => self.sound(image),
            Format::V2 => self.sound_v2(image),
        }
    }

    /// One request to a store of a version.
    fn answer_in(
        &mut self,
        format: Format,
        image: &mut [u8],
        command: &[u8],
        reply: &mut [u8],
    ) -> Answer {
        match format {
            Format::V1 => self.answer(image, command, reply),
            Format::V2 => self.answer_v2(image, command, reply),
        }
    }

    /// Converts an image of version 1.
    fn convert(&mut self, image: &[u8], target: &mut [u8]) -> u8 {
        raw::convert(image, target)
    }

    /// A run over a stream: how many commands were judged, and where it stopped.
    fn run(
        &mut self,
        format: Format,
        image: &mut [u8],
        stream: &[u8],
        reply: &mut [u8],
        lines: &mut [u64],
    ) -> (u64, u64) {
        let mut end = UNWRITTEN;
        let judged = match format {
            Format::V1 => raw::run(image, stream, reply, lines, &mut end),
            Format::V2 => raw::run_v2(image, stream, reply, lines, &mut end),
        };
        (judged, end)
    }

    /// Where the whole commands of a stream end.
    fn end(&mut self, format: Format, stream: &[u8]) -> u64 {
        match format {
            Format::V1 => raw::end(stream),
            Format::V2 => raw::end_v2(stream),
        }
    }

    /// One request to the history engine, for so many cards and such room.
    fn history(
        &mut self,
        kept: &mut [u8; 43_168],
        used: &mut u64,
        (cards, room): (u16, u16),
        command: &[u8],
        reply: &mut [u8],
    ) -> Answer {
        let mut fields = [UNWRITTEN; 7];
        let number = raw::history_answer(kept, used, cards, room, command, reply, &mut fields);
        Answer { number, fields }
    }

    /// Compares two structured texts: the number and the place.
    fn agree(&mut self, first: &[u8], second: &[u8]) -> (u8, u64) {
        let mut place = UNWRITTEN;
        let number = raw::agree(first, second, &mut place);
        (number, place)
    }

    /// Recovery: the number and the line.
    fn recover(&mut self, log: &[u8], image: &mut [u8], s: &[u64], x: &[u64]) -> (u8, u64) {
        let mut line = UNWRITTEN;
        let number = raw::recover(log, image, s, x, &mut line);
        (number, line)
    }

    /// The next step of a desk for a card (rule 16.25): the step, the line that
    /// is written and the transaction that is noted.
    fn next_step(
        &mut self,
        log: &[u8],
        (desk, card): (u16, u16),
        going: bool,
        seen: &[u16; 4],
    ) -> Next {
        let (mut line, mut noted) = (UNWRITTEN, UNWRITTEN);
        let step = raw::next_step(log, desk, card, going, seen, &mut line, &mut noted);
        (step, line, noted)
    }

    /// What the answer to a step tells (rule 16.24): known, held, mark, reach.
    fn heard(&mut self, (step, line): (u8, u8), number: u8, mark: u16) -> [u16; 4] {
        let mut seen = [0x5a5a; 4];
        raw::heard(step, line, number, mark, &mut seen);
        seen
    }

    /// A log begins again where nothing is due (rule 16.27).
    fn begin_again(&mut self, log: &mut [u8]) -> bool {
        raw::log_begin_again(log)
    }
}

/// A step of a transaction, the line that it writes, the transaction that it
/// notes.
pub type Next = (u8, u64, u64);

/// The proved library.
#[derive(Clone, Copy, Debug, Default)]
pub struct Proved;

impl Library for Proved {}
