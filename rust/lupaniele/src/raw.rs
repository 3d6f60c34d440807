//! The exported functions as safe calls on slices, arrays and plain numbers, one for each, under its name without the
//! prefix. Every one takes any values. The types of this crate ask these; a program of its own asks them where it keeps
//! bytes and numbers in a shape of its own. What each answers is said in `include/lupaniele.h`, and by rule in
//! `docs/RULES.md`.
//!
//! All `unsafe` code of the crate is here. Each pointer and length is that of a slice, an array or a number which the caller
//! lends for the call. What is written is lent mutably, so it overlaps nothing; and the library keeps no pointer.
#![allow(unsafe_code)]
#![allow(clippy::too_many_arguments)] // as many as the exported functions have

use crate::{Lease, sys};

/// Makes a fresh image of version 1 in the whole of `image` (rules 2.2 and 2.7): 0 or 14.
///
/// ```
/// let mut image = [0; 80];
/// assert_eq!(lupaniele::raw::make(&mut image, 1, 16), 0);
/// ```
#[inline]
#[must_use]
pub fn make(image: &mut [u8], cards: u64, room: u64) -> u8 {
    unsafe { sys::lupaniele_make(image.as_mut_ptr(), image.len(), cards, room) }
}

/// Whether the bytes are a sound image of version 1 (rule 2.6).
///
/// ```
/// assert!(!lupaniele::raw::sound(&[0; 80]));
/// ```
#[inline]
#[must_use]
pub fn sound(image: &[u8]) -> bool {
    unsafe { sys::lupaniele_sound(image.as_ptr(), image.len()) }
}

/// One request on an image of version 1 (rule 4.1): the number; the seven fields in `fields`, a text read at the front
/// of `reply`.
///
/// ```
/// let (mut image, mut fields) = ([0; 80], [0; 7]);
/// assert_eq!(lupaniele::raw::answer(&mut image, &[], &mut [], &mut fields), 9);
/// ```
#[inline]
#[must_use]
pub fn answer(image: &mut [u8], command: &[u8], reply: &mut [u8], fields: &mut [u64; 7]) -> u8 {
    unsafe {
        sys::lupaniele_answer(
            image.as_mut_ptr(),
            image.len(),
            command.as_ptr(),
            command.len(),
            reply.as_mut_ptr(),
            reply.len(),
            fields,
        )
    }
}

/// Makes a fresh image of version 2 in the whole of `image` (rule 15.5): 0 or 14.
///
/// ```
/// let mut image = [0; 144];
/// assert_eq!(lupaniele::raw::make_v2(&mut image, 1, 16), 0);
/// ```
#[inline]
#[must_use]
pub fn make_v2(image: &mut [u8], cards: u64, room: u64) -> u8 {
    unsafe { sys::lupaniele_make_v2(image.as_mut_ptr(), image.len(), cards, room) }
}

/// Whether the bytes are a sound image of version 2 (rule 15.5).
///
/// ```
/// assert!(!lupaniele::raw::sound_v2(&[0; 144]));
/// ```
#[inline]
#[must_use]
pub fn sound_v2(image: &[u8]) -> bool {
    unsafe { sys::lupaniele_sound_v2(image.as_ptr(), image.len()) }
}

/// One request on an image of version 2 (rule 15.8), as [`answer`].
///
/// ```
/// let (mut image, mut fields) = ([0; 144], [0; 7]);
/// assert_eq!(lupaniele::raw::answer_v2(&mut image, &[], &mut [], &mut fields), 9);
/// ```
#[inline]
#[must_use]
pub fn answer_v2(image: &mut [u8], command: &[u8], reply: &mut [u8], fields: &mut [u64; 7]) -> u8 {
    unsafe {
        sys::lupaniele_answer_v2(
            image.as_mut_ptr(),
            image.len(),
            command.as_ptr(),
            command.len(),
            reply.as_mut_ptr(),
            reply.len(),
            fields,
        )
    }
}

/// Converts an image of version 1 into one of version 2 in the whole of `target` (rule 15.10): 0, 9 or 14.
///
/// ```
/// assert_eq!(lupaniele::raw::convert(&[0; 80], &mut [0; 144]), 9);
/// ```
#[inline]
#[must_use]
pub fn convert(image: &[u8], target: &mut [u8]) -> u8 {
    unsafe {
        sys::lupaniele_convert(
            image.as_ptr(),
            image.len(),
            target.as_mut_ptr(),
            target.len(),
        )
    }
}

/// Asks for the lock with a mode and a pair (rules 7.6 to 7.10): the number; holds, largest s, largest x and looked at
/// in `fields`.
///
/// ```
/// let (mut modes, mut s, mut x) = ([0; 32], [0; 32], [0; 32]);
/// let (mut kept, mut fields) = ([0; 3], [0; 4]);
/// let number = lupaniele::raw::ask(&mut modes, &mut s, &mut x, &mut kept, 32, 1, 65_536, 0, &mut fields);
/// assert_eq!((number, fields, kept[0]), (0, [1, 65_536, 0, 0], 1));
/// ```
#[inline]
#[must_use]
pub fn ask(
    modes: &mut [u8; 32],
    s: &mut [u64; 32],
    x: &mut [u64; 32],
    kept: &mut [u64; 3],
    places: u64,
    mode: u8,
    asked_s: u64,
    asked_x: u64,
    fields: &mut [u64; 4],
) -> u8 {
    unsafe { sys::lupaniele_ask(modes, s, x, kept, places, mode, asked_s, asked_x, fields) }
}

/// A desk and start leaves the queue (rules 7.12 and 7.13).
///
/// ```
/// let (mut modes, mut s, mut x) = ([0; 32], [0; 32], [0; 32]);
/// let (mut kept, mut fields) = ([0; 3], [0; 4]);
/// let number = lupaniele::raw::leave(&mut modes, &mut s, &mut x, &mut kept, 32, 65_536, &mut fields);
/// assert_eq!(number, 15);
/// ```
#[inline]
#[must_use]
pub fn leave(
    modes: &mut [u8; 32],
    s: &mut [u64; 32],
    x: &mut [u64; 32],
    kept: &mut [u64; 3],
    places: u64,
    desk: u32,
    fields: &mut [u64; 4],
) -> u8 {
    unsafe { sys::lupaniele_leave(modes, s, x, kept, places, desk, fields) }
}

/// A desk that fell silent leaves once its lease is over (rules 13.1 to 13.8).
///
/// ```
/// let (mut modes, mut s, mut x) = ([0; 32], [0; 32], [0; 32]);
/// let (mut kept, mut fields) = ([0; 3], [0; 4]);
/// let (period, drift, begin, time) = (0.0, 0.0, 0.0, 0.0);
/// let number = lupaniele::raw::lapse(
///     &mut modes, &mut s, &mut x, &mut kept, 32, 65_536, period, drift, begin, time, &mut fields,
/// );
/// assert_eq!(number, 21);
/// ```
#[inline]
#[must_use]
pub fn lapse(
    modes: &mut [u8; 32],
    s: &mut [u64; 32],
    x: &mut [u64; 32],
    kept: &mut [u64; 3],
    places: u64,
    desk: u32,
    period: f64,
    drift: f64,
    begin: f64,
    time: f64,
    fields: &mut [u64; 4],
) -> u8 {
    unsafe {
        sys::lupaniele_lapse(
            modes, s, x, kept, places, desk, period, drift, begin, time, fields,
        )
    }
}

/// A lock queue as its keeper lends it to [`ask`], [`leave`] and [`lapse`], any values at all: modes, s and x of the 32
/// places; the count, the largest s and the largest x; and how many places are lent. The methods are those three on it.
///
/// ```
/// use lupaniele::raw::Places;
/// let (mut queue, mut fields) = (Places { places: 32, ..Places::default() }, [0; 4]);
/// assert_eq!(queue.ask(1, 65_536, 0, &mut fields), 0);
/// assert_eq!((queue.modes[0], queue.s[0], queue.kept), (1, 65_536, [1, 65_536, 0]));
/// ```
#[derive(Clone, Copy, Debug, Default, PartialEq, Eq)]
pub struct Places {
    /// The modes of the 32 places.
    pub modes: [u8; 32],
    /// Their shared stamps.
    pub s: [u64; 32],
    /// Their exclusive stamps.
    pub x: [u64; 32],
    /// The count, the largest s and the largest x.
    pub kept: [u64; 3],
    /// How many places are lent.
    pub places: u64,
}

impl Places {
    /// [`ask`] on it.
    ///
    /// ```
    /// use lupaniele::raw::Places;
    /// assert_eq!(Places::default().ask(1, 65_536, 0, &mut [0; 4]), 10);
    /// ```
    #[inline]
    #[must_use]
    pub fn ask(&mut self, mode: u8, s: u64, x: u64, fields: &mut [u64; 4]) -> u8 {
        let (kept, places) = (&mut self.kept, self.places);
        let (modes, all_s, all_x) = (&mut self.modes, &mut self.s, &mut self.x);
        ask(modes, all_s, all_x, kept, places, mode, s, x, fields)
    }

    /// [`leave`] on it.
    ///
    /// ```
    /// use lupaniele::raw::Places;
    /// assert_eq!(Places::default().leave(65_536, &mut [0; 4]), 10);
    /// ```
    #[inline]
    #[must_use]
    pub fn leave(&mut self, desk: u32, fields: &mut [u64; 4]) -> u8 {
        let (kept, places) = (&mut self.kept, self.places);
        let (modes, s, x) = (&mut self.modes, &mut self.s, &mut self.x);
        leave(modes, s, x, kept, places, desk, fields)
    }

    /// [`lapse`] on it.
    ///
    /// ```
    /// use lupaniele::{Lease, raw::Places};
    /// let lease = Lease { period: 30.0, drift: 0.5, begin: 100.0, now: 145.0 };
    /// assert_eq!(Places::default().lapse(65_536, lease, &mut [0; 4]), 10);
    /// ```
    #[inline]
    #[must_use]
    pub fn lapse(&mut self, desk: u32, lease: Lease, fields: &mut [u64; 4]) -> u8 {
        let (kept, places) = (&mut self.kept, self.places);
        let (modes, s, x) = (&mut self.modes, &mut self.s, &mut self.x);
        let (period, drift) = (lease.period, lease.drift);
        let (begin, now) = (lease.begin, lease.now);
        lapse(
            modes, s, x, kept, places, desk, period, drift, begin, now, fields,
        )
    }
}

/// A desk learns a pair (rule 10.2).
///
/// ```
/// let mut known = [1, 5];
/// lupaniele::raw::learn(&mut known, 3, 4);
/// assert_eq!(known, [3, 5]);
/// ```
#[inline]
pub fn learn(known: &mut [u64; 2], s: u64, x: u64) {
    unsafe { sys::lupaniele_learn(known, s, x) }
}

/// A desk proposes a pair (rules 10.3 to 10.7): 0, 1 or 16.
///
/// ```
/// let (mut known, mut pair) = ([0, 0], [0, 0]);
/// assert_eq!(lupaniele::raw::propose(1, 0, &mut known, 1, &mut pair), 0);
/// assert_eq!((pair, known), ([65_536, 0], [65_536, 0]));
/// ```
#[inline]
#[must_use]
pub fn propose(desk: u16, start: u16, known: &mut [u64; 2], mode: u8, pair: &mut [u64; 2]) -> u8 {
    unsafe { sys::lupaniele_propose(desk, start, known, mode, pair) }
}

/// The text that a desk shows (rules 6.1 to 6.3): the number, and in `count` how many first bytes of the buffer asked
/// for.
///
/// ```
/// let mut count = 0;
/// assert_eq!(lupaniele::raw::shown(b"205", b"401", 3, 3, 1, 1, 1, &mut count), 0);
/// assert_eq!(count, 3);
/// ```
#[inline]
#[must_use]
pub fn shown(
    original: &[u8],
    translation: &[u8],
    original_length: u64,
    translation_length: u64,
    edition: u16,
    from: u16,
    asked: u8,
    count: &mut u64,
) -> u8 {
    unsafe {
        sys::lupaniele_shown(
            original.as_ptr(),
            original.len(),
            translation.as_ptr(),
            translation.len(),
            original_length,
            translation_length,
            edition,
            from,
            asked,
            count,
        )
    }
}

/// Whether a whole command of version 1 stands at `at` (rule 8.1), and in `end` the place behind it.
///
/// ```
/// let mut end = 0;
/// assert!(lupaniele::raw::next(&[0; 60], 0, &mut end));
/// assert_eq!(end, 52);
/// ```
#[inline]
#[must_use]
pub fn next(stream: &[u8], at: u64, end: &mut u64) -> bool {
    unsafe { sys::lupaniele_next(stream.as_ptr(), stream.len(), at, end) }
}

/// Where the whole commands of a stream of version 1 end (rule 8.2).
///
/// ```
/// assert_eq!(lupaniele::raw::end(&[0; 60]), 52);
/// ```
#[inline]
#[must_use]
pub fn end(stream: &[u8]) -> u64 {
    unsafe { sys::lupaniele_end(stream.as_ptr(), stream.len()) }
}

/// Whether a whole command of version 2 stands at `at` (rule 15.6), and in `end` the place behind it.
///
/// ```
/// let mut end = 0;
/// assert!(lupaniele::raw::next_v2(&[0; 70], 0, &mut end));
/// assert_eq!(end, 68);
/// ```
#[inline]
#[must_use]
pub fn next_v2(stream: &[u8], at: u64, end: &mut u64) -> bool {
    unsafe { sys::lupaniele_next_v2(stream.as_ptr(), stream.len(), at, end) }
}

/// Where the whole commands of a stream of version 2 end (rule 15.6).
///
/// ```
/// assert_eq!(lupaniele::raw::end_v2(&[0; 70]), 68);
/// ```
#[inline]
#[must_use]
pub fn end_v2(stream: &[u8]) -> u64 {
    unsafe { sys::lupaniele_end_v2(stream.as_ptr(), stream.len()) }
}

/// A run over a stream of version 1 (rule 8.5): how many commands were judged; eight numbers for each in `lines`, where
/// it stopped in `end`.
///
/// ```
/// let (mut lines, mut end) = ([0; 8], 0);
/// assert_eq!(lupaniele::raw::run(&mut [0; 80], &[0; 60], &mut [], &mut lines, &mut end), 1);
/// assert_eq!((lines[0], end), (9, 52));
/// ```
#[inline]
#[must_use]
pub fn run(
    image: &mut [u8],
    stream: &[u8],
    reply: &mut [u8],
    lines: &mut [u64],
    end: &mut u64,
) -> u64 {
    unsafe {
        sys::lupaniele_run(
            image.as_mut_ptr(),
            image.len(),
            stream.as_ptr(),
            stream.len(),
            reply.as_mut_ptr(),
            reply.len(),
            lines.as_mut_ptr(),
            lines.len(),
            end,
        )
    }
}

/// A run over a stream of version 2, as [`run`].
///
/// ```
/// let (mut lines, mut end) = ([0; 8], 0);
/// assert_eq!(lupaniele::raw::run_v2(&mut [0; 144], &[0; 70], &mut [], &mut lines, &mut end), 1);
/// assert_eq!((lines[0], end), (9, 68));
/// ```
#[inline]
#[must_use]
pub fn run_v2(
    image: &mut [u8],
    stream: &[u8],
    reply: &mut [u8],
    lines: &mut [u64],
    end: &mut u64,
) -> u64 {
    unsafe {
        sys::lupaniele_run_v2(
            image.as_mut_ptr(),
            image.len(),
            stream.as_ptr(),
            stream.len(),
            reply.as_mut_ptr(),
            reply.len(),
            lines.as_mut_ptr(),
            lines.len(),
            end,
        )
    }
}

/// What the program prints for these bytes (rule 8.6): how many bytes, at the front of `out`; 0 if `out` is too short.
///
/// ```
/// let mut out = vec![0; lupaniele::OUTPUT_BYTES];
/// assert_eq!(lupaniele::raw::output(b"", &mut out), 10);
/// ```
#[inline]
#[must_use]
pub fn output(input: &[u8], out: &mut [u8]) -> u64 {
    unsafe { sys::lupaniele_output(input.as_ptr(), input.len(), out.as_mut_ptr(), out.len()) }
}

/// Whether two structured texts say the same drops (rule 12.9): 0, 18, 19 or 20, and in `place` where they part (rule
/// 12.10).
///
/// ```
/// let mut place = 7;
/// assert_eq!(lupaniele::raw::agree(&[1, 0], &[1, 0], &mut place), 0);
/// assert_eq!(place, 0);
/// ```
#[inline]
#[must_use]
pub fn agree(first: &[u8], second: &[u8], place: &mut u64) -> u8 {
    unsafe {
        sys::lupaniele_agree(
            first.as_ptr(),
            first.len(),
            second.as_ptr(),
            second.len(),
            place,
        )
    }
}

/// One request to the history engine (rules 14.1 to 14.9).
///
/// ```
/// let (mut kept, mut used, mut fields) = (Box::new([0; 43_168]), 0, [0; 7]);
/// let number = lupaniele::raw::history_answer(&mut kept, &mut used, 1, 16, &[], &mut [], &mut fields);
/// assert_eq!((number, used), (1, 0));
/// ```
#[inline]
#[must_use]
pub fn history_answer(
    kept: &mut [u8; 43168],
    used: &mut u64,
    cards: u16,
    room: u16,
    command: &[u8],
    reply: &mut [u8],
    fields: &mut [u64; 7],
) -> u8 {
    unsafe {
        sys::lupaniele_history_answer(
            kept,
            used,
            cards,
            room,
            command.as_ptr(),
            command.len(),
            reply.as_mut_ptr(),
            reply.len(),
            fields,
        )
    }
}

/// Whether the bytes are a good log (rule 11.8): 0 or 23.
///
/// ```
/// assert_eq!(lupaniele::raw::log_check(&[0; 2_201]), 0);
/// assert_eq!(lupaniele::raw::log_check(&[0; 2_200]), 23);
/// ```
#[inline]
#[must_use]
pub fn log_check(log: &[u8]) -> u8 {
    unsafe { sys::lupaniele_log_check(log.as_ptr(), log.len()) }
}

/// Appends a record as far as `stores` stores of one byte go (rules 11.9 to 11.12): 0, 23, 24 or 26.
///
/// ```
/// let mut log = [0; 4_096];
/// assert_eq!(lupaniele::raw::log_append(&mut log, 1, &[7, 0, 0, 0], 16), 0);
/// assert_eq!(log[0], 1);
/// ```
#[inline]
#[must_use]
pub fn log_append(log: &mut [u8], kind: u8, body: &[u8], stores: u64) -> u8 {
    unsafe {
        sys::lupaniele_log_append(
            log.as_mut_ptr(),
            log.len(),
            kind,
            body.as_ptr(),
            body.len(),
            stores,
        )
    }
}

/// Recovery (rules 11.15 to 11.20): the number, and in `line` the line of a refused write.
///
/// ```
/// let mut line = 7;
/// assert_eq!(lupaniele::raw::recover(&[0; 2_201], &mut [], &[], &[], &mut line), 0);
/// assert_eq!(line, 0);
/// ```
#[inline]
#[must_use]
pub fn recover(log: &[u8], image: &mut [u8], s: &[u64], x: &[u64], line: &mut u64) -> u8 {
    unsafe {
        sys::lupaniele_recover(
            log.as_ptr(),
            log.len(),
            image.as_mut_ptr(),
            image.len(),
            s.as_ptr(),
            s.len(),
            x.as_ptr(),
            x.len(),
            line,
        )
    }
}

/// What a desk sees by the answer to a step (rule 16.24): `seen` is written.
///
/// ```
/// let mut seen = [7; 4];
/// lupaniele::raw::heard(2, 0, 0, 5, &mut seen); // a prepare of desk 5 was accepted
/// assert_eq!(seen, [1, 1, 5, 0]);
/// ```
#[inline]
pub fn heard(step: u8, line: u8, number: u8, mark: u16, seen: &mut [u16; 4]) {
    unsafe { sys::lupaniele_heard(step, line, number, mark, seen) }
}

/// The next step of a desk for a card (rule 16.25), and in `line` and `transaction` what it is about.
///
/// ```
/// let (mut line, mut transaction) = (7, 7);
/// let step = lupaniele::raw::next_step(&[0; 2_201], 5, 0, false, &[0; 4], &mut line, &mut transaction);
/// assert_eq!((step, line, transaction), (1, 0, 0)); // nothing is seen yet
/// ```
#[inline]
#[must_use]
pub fn next_step(
    log: &[u8],
    desk: u16,
    card: u16,
    going: bool,
    seen: &[u16; 4],
    line: &mut u64,
    transaction: &mut u64,
) -> u8 {
    unsafe {
        sys::lupaniele_next_step(
            log.as_ptr(),
            log.len(),
            desk,
            card,
            going,
            seen,
            line,
            transaction,
        )
    }
}

/// Lets a log begin again by one store, if it is good and nothing in it is due (rule 16.27).
///
/// ```
/// assert!(lupaniele::raw::log_begin_again(&mut [0; 2_201]));
/// assert!(!lupaniele::raw::log_begin_again(&mut [0; 2_200]));
/// ```
#[inline]
#[must_use]
pub fn log_begin_again(log: &mut [u8]) -> bool {
    unsafe { sys::lupaniele_log_begin_again(log.as_mut_ptr(), log.len()) }
}
