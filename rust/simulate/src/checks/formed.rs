//! A command as the rules read it (rules 1.2 to 1.7, 3.1 to 3.4; of version 2
//! rules 15.6 and 15.7).

use second::{CommandFields, Format, Mark, Pair};

/// Modes.
pub const SHARED: u8 = 1;
/// See [`SHARED`].
pub const EXCLUSIVE: u8 = 2;

/// The desk and start in a stamp (rule 1.1).
pub fn desk_of(stamp: u64) -> u32 {
    stamp as u32
}

/// The T of a stamp (rule 1.1).
pub fn time_of(stamp: u64) -> u64 {
    stamp >> 32
}

/// Rule 1.2.
pub fn valid(stamp: u64) -> bool {
    stamp == 0 || desk_of(stamp) >= 1 << 16
}

/// The mode's own stamp (rule 1.4).
pub fn own(mode: u8, pair: Pair) -> u64 {
    match mode {
        SHARED => pair.s,
        _ => pair.x,
    }
}

/// What may be sent in a mode (rule 1.4).
pub fn sendable(mode: u8, pair: Pair) -> bool {
    (mode == SHARED || mode == EXCLUSIVE) && valid(pair.s) && valid(pair.x) && own(mode, pair) != 0
}

/// Whether a pair is below another one, as its mode sees it (rules 4.2, 7.7).
pub fn below(mode: u8, pair: Pair, other: Pair) -> bool {
    pair.x < other.x || mode == EXCLUSIVE && pair.s < other.s
}

/// A well-formed command.
#[derive(Clone, Copy, Debug)]
pub struct Sent<'a> {
    /// 1 to 5.
    pub act: u8,
    /// 1 or 2.
    pub mode: u8,
    /// Its card.
    pub card: u16,
    /// What staleness looks at.
    pub verifier: Pair,
    /// What raises the stored pair, and names the session and the desk.
    pub update: Pair,
    /// The desk and start.
    pub desk: u32,
    /// The mark that it expects.
    pub expected: Mark,
    /// The mark that it leaves.
    pub next: Mark,
    /// The language, 0 to 3; 0 but for acts 2 and 4 of version 2 (rule 15.7).
    pub language: usize,
    /// The edition that a translation is made from.
    pub edition: u16,
    /// The text.
    pub payload: &'a [u8],
}

impl Sent<'_> {
    /// The text that it is about: 0 the original, then the translations.
    fn text(&self) -> usize {
        match self.act {
            2 | 4 => 1 + self.language,
            _ => 0,
        }
    }

    /// The text that it reads.
    pub fn reads(&self) -> Option<usize> {
        (self.act <= 2).then(|| self.text())
    }

    /// The text that it writes.
    pub fn writes(&self) -> Option<usize> {
        (self.act == 3 || self.act == 4).then(|| self.text())
    }
}

/// The bytes of a command before its payload (rules 3.1 and 15.6).
pub fn head(format: Format) -> usize {
    match format {
        Format::V1 => 52,
        Format::V2 => 68,
    }
}

/// The update pair that is meant: the verifier where none is sent (rule 3.4).
pub fn meant(fields: &CommandFields) -> Pair {
    match fields.update == Pair::default() {
        true => fields.pair,
        false => fields.update,
    }
}

/// The command of version 1 in these bytes, or none if they are malformed.
pub fn formed(bytes: &[u8]) -> Option<Sent<'_>> {
    formed_as(Format::V1, bytes)
}

/// The command of a version in these bytes, or none if they are malformed.
pub fn formed_as(format: Format, bytes: &[u8]) -> Option<Sent<'_>> {
    let fields = CommandFields::from_bytes(format, bytes)?;
    let payload = &bytes[head(format)..];
    let (act, mode, verifier) = (fields.act, fields.mode, fields.pair);
    let update = meant(&fields);
    let write = act == 3 || act == 4;
    let mark = |mark: Mark| (mark.desk == 0) == (mark.transaction == 0);
    let right = payload.len() == usize::from(fields.length)
        && (1..=5).contains(&act)
        && (!write || mode == EXCLUSIVE)
        && (fields.edition != 0) == (act == 4)
        && (write || payload.is_empty())
        && fields.language <= if act == 2 || act == 4 { 3 } else { 0 }
        && fields.reserved == [0; 15]
        && valid(verifier.s)
        && valid(verifier.x)
        && sendable(mode, update)
        && update.s >= verifier.s
        && update.x >= verifier.x
        && mark(fields.expected)
        && mark(fields.next);
    right.then(|| Sent {
        act,
        mode,
        card: fields.card,
        verifier,
        update,
        desk: desk_of(own(mode, update)),
        expected: fields.expected,
        next: fields.next,
        language: fields.language.into(),
        edition: fields.edition,
        payload,
    })
}
