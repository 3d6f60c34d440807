//! The proved library, by its exported functions, in the words of the second
//! program. What must be written holds a value before that nothing has.

use lupaniele::raw::{self, Places};
use second::short::Kept;
use second::{Format, Held, Language, Silence, Turn};

/// What a number is set to before a call that must write it.
pub const UNWRITTEN: u64 = 0x5a5a_5a5a_5a5a_5a5a;

/// Makes a fresh image: 0, or 14 and nothing written.
pub fn make(format: Format, image: &mut [u8], cards: u64, room: u64) -> u8 {
    match format {
        Format::V1 => raw::make(image, cards, room),
        Format::V2 => raw::make_v2(image, cards, room),
    }
}

/// Whether the bytes are a sound image.
pub fn sound(format: Format, image: &[u8]) -> bool {
    match format {
        Format::V1 => raw::sound(image),
        Format::V2 => raw::sound_v2(image),
    }
}

/// Converts an image of version 1: 0, or 9 or 14 and nothing written.
pub fn convert(image: &[u8], target: &mut [u8]) -> u8 {
    raw::convert(image, target)
}

/// The number and the seven reply fields.
#[derive(Clone, Copy, Debug, PartialEq, Eq)]
pub struct Answer {
    /// The number, 0 to 9 or 17.
    pub number: u8,
    /// The reply fields, in the order of rule 4.8.
    pub fields: [u64; 7],
}

/// One request on an image.
pub fn answer(format: Format, image: &mut [u8], command: &[u8], reply: &mut [u8]) -> Answer {
    let answer = match format {
        Format::V1 => raw::answer,
        Format::V2 => raw::answer_v2,
    };
    let mut fields = [UNWRITTEN; 7];
    let number = answer(image, command, reply, &mut fields);
    Answer { number, fields }
}

/// A run of a stream: how many commands were judged, and the byte where it
/// stopped.
pub fn run(
    format: Format,
    image: &mut [u8],
    stream: &[u8],
    reply: &mut [u8],
    lines: &mut [u64],
) -> (usize, usize) {
    let run = match format {
        Format::V1 => raw::run,
        Format::V2 => raw::run_v2,
    };
    let mut end = u64::MAX;
    let count = run(image, stream, reply, lines, &mut end);
    (count as usize, end as usize)
}

/// A number, then holds (1 or 0), the largest s, the largest x, entries looked
/// at.
pub type QueueAnswer = (u8, [u64; 4]);

/// The queue with its places lent; of more than 32 the first 32, since such a
/// queue is bad whatever they hold.
pub fn lent(kept: &Kept) -> Places {
    let mut queue = Places {
        modes: [0xaa; 32],
        s: [0xaaaa_aaaa; 32],
        x: [0xaaaa_aaaa; 32],
        kept: [kept.count as u64, kept.largest.s, kept.largest.x],
        places: kept.places.len() as u64,
    };
    for (at, place) in kept.places.iter().take(32).enumerate() {
        queue.modes[at] = place.mode;
        queue.s[at] = place.pair.s;
        queue.x[at] = place.pair.x;
    }
    queue
}

/// A desk asks or leaves.
pub fn turn(queue: &mut Places, turn: Turn) -> QueueAnswer {
    let mut fields = [UNWRITTEN; 4];
    let number = match turn {
        Turn::Ask(asked) => queue.ask(asked.mode, asked.pair.s, asked.pair.x, &mut fields),
        Turn::Leave(desk) => queue.leave(desk, &mut fields),
    };
    (number, fields)
}

/// A silent desk leaves.
pub fn lapse(queue: &mut Places, silence: Silence) -> QueueAnswer {
    let lease = lupaniele::Lease {
        period: silence.lease.period,
        drift: silence.lease.drift,
        begin: silence.begin,
        now: silence.now,
    };
    let mut fields = [UNWRITTEN; 4];
    (queue.lapse(silence.desk, lease, &mut fields), fields)
}

/// The number, and how many first bytes of the buffer asked for are shown.
/// `asked` is 0 for the original, 1 for the translation.
pub fn shown(held: &Held, asked: u8) -> (u8, u64) {
    let mut count = UNWRITTEN;
    let number = raw::shown(
        held.original,
        held.translation,
        held.original_length,
        held.translation_length,
        held.edition,
        held.translated_from,
        asked,
        &mut count,
    );
    (number, count)
}

/// The number by which a language is asked for.
pub fn asked(language: Language) -> u8 {
    match language {
        Language::Original => 0,
        Language::Translation(_) => 1,
    }
}

/// Whether a whole command stands at a place of a stream, and the place
/// behind it, or the place itself.
pub fn next(format: Format, stream: &[u8], at: u64) -> (bool, u64) {
    let mut end = UNWRITTEN;
    let whole = match format {
        Format::V1 => raw::next(stream, at, &mut end),
        Format::V2 => raw::next_v2(stream, at, &mut end),
    };
    (whole, end)
}

/// The byte where the walk of a stream ends.
pub fn end(format: Format, stream: &[u8]) -> u64 {
    match format {
        Format::V1 => raw::end(stream),
        Format::V2 => raw::end_v2(stream),
    }
}

/// Writes what the program prints for an input, and tells how many bytes.
pub fn output(input: &[u8], out: &mut [u8]) -> u64 {
    raw::output(input, out)
}
