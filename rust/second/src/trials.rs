//! The trials a to n, case P, three slips that a store must not make, commands
//! with two pairs and languages, as data; and what runs them on any
//! implementation. In version 2 each trial is run once for each language.

// Nothing here is part of the store: a trial that is written wrong stops the
// test.
#![allow(clippy::arithmetic_side_effects, clippy::indexing_slicing)]

use crate::short::*;
use crate::{
    output, Answer, CommandFields, Entry, Format, Layout, Mark, Pair, Place, Queue, QueueAnswer,
    Turn,
};

/// Numbers that say what an answer is, and the fields that stand with it.
pub type Told<const FIELDS: usize> = (u8, [u64; FIELDS]);

/// What is tried: the second program, or the proved library. What goes wrong
/// in a call itself is told as text.
pub trait Tried {
    /// Makes a fresh image.
    fn make(
        &mut self,
        format: Format,
        image: &mut [u8],
        cards: u64,
        room: u64,
    ) -> Result<u8, String>;
    /// Answers a command: the number and the seven reply fields.
    fn answer(
        &mut self,
        format: Format,
        image: &mut [u8],
        command: &[u8],
        reply: &mut [u8],
    ) -> Result<Told<7>, String>;
    /// A turn on a queue: the number; holds, the largest s, the largest x,
    /// entries looked at.
    fn turn(&mut self, queue: &mut Kept, turn: Turn) -> Result<Told<4>, String>;
    /// What the program prints.
    fn output(&mut self, input: &[u8]) -> Result<String, String>;
}

/// The second program, by what answers its commands and takes its turns: a test
/// looks at them there.
#[derive(Debug)]
pub struct Second<A, T> {
    /// Answers a command.
    pub answer: A,
    /// Takes a turn on a queue.
    pub turn: T,
}

impl<A, T> Tried for Second<A, T>
where
    A: FnMut(Format, &mut [u8], &[u8], &mut [u8]) -> Answer,
    T: FnMut(&mut Queue, Turn) -> QueueAnswer,
{
    fn make(
        &mut self,
        format: Format,
        image: &mut [u8],
        cards: u64,
        room: u64,
    ) -> Result<u8, String> {
        Ok(format.make_fresh(image, cards, room))
    }

    fn answer(
        &mut self,
        format: Format,
        image: &mut [u8],
        command: &[u8],
        reply: &mut [u8],
    ) -> Result<Told<7>, String> {
        let answer = (self.answer)(format, image, command, reply);
        Ok((answer.number, answer.fields.numbers()))
    }

    fn turn(&mut self, queue: &mut Kept, turn: Turn) -> Result<Told<4>, String> {
        let answer = queue.lend(|queue| (self.turn)(queue, turn));
        Ok((answer.number, answer.numbers()))
    }

    fn output(&mut self, input: &[u8]) -> Result<String, String> {
        Ok(output(input))
    }
}

/// The places of the reply fields that a trial names.
const S: usize = 0;
const X: usize = 1;
const EDITION: usize = 4;
const FROM: usize = 5;
const LENGTH: usize = 6;

/// A store to run a trial in: its version, N, C and the card that it is about.
#[derive(Clone, Copy, Debug)]
pub struct Store {
    /// The version.
    pub format: Format,
    /// N.
    pub cards: u64,
    /// C.
    pub room: u64,
    /// The card.
    pub card: u16,
}

/// The stores in which each trial is run.
pub fn stores(format: Format) -> [Store; 5] {
    let shapes = match format {
        Format::V1 => [
            (1, 16, 0),
            (3, 48, 1),
            (31, 1_024, 30),
            (89, 352, 88),
            (128, 224, 127),
        ],
        Format::V2 => [
            (1, 16, 0),
            (3, 48, 1),
            (12, 1_024, 11),
            (65, 192, 64),
            (128, 80, 127),
        ],
    };
    shapes.map(|(cards, room, card)| Store {
        format,
        cards,
        room,
        card,
    })
}

/// A command, and what it is answered.
pub struct Step {
    /// Its bytes.
    command: Vec<u8>,
    /// How long the reply buffer is.
    lent: usize,
    /// The number.
    number: u8,
    /// Fields and their values.
    fields: Vec<(usize, u64)>,
    /// The text that an accepted read shows.
    shown: Vec<u8>,
}

/// A command that gets this number, with a reply buffer of no bytes.
fn step(command: Vec<u8>, number: u8) -> Step {
    Step {
        command,
        lent: 0,
        number,
        fields: Vec::new(),
        shown: Vec::new(),
    }
}

impl Step {
    /// With a reply buffer of so many bytes.
    fn lent(self, lent: usize) -> Step {
        Step { lent, ..self }
    }

    /// One of the reply fields has this value.
    fn field(mut self, at: usize, value: u64) -> Step {
        self.fields.push((at, value));
        self
    }

    /// All of them have these values.
    fn all_fields(mut self, values: [u64; 7]) -> Step {
        self.fields = (0..).zip(values).collect();
        self
    }

    /// The same step in version 2: an act about the translation names this
    /// language, and every other act is answered language 0's translated-from.
    fn again(mut self, language: u8) -> Step {
        if let Some(fields) = CommandFields::from_bytes(V1, &self.command) {
            let names = matches!(fields.act, READ_TRANSLATION | WRITE_TRANSLATION);
            let named = if names { language } else { 0 };
            let payload = &self.command[V1.command_bytes()..];
            self.command = into(named, fields).followed_by(payload);
            let froms = self.fields.iter_mut().filter(|(at, _)| *at == FROM);
            froms
                .filter(|_| named != language)
                .for_each(|(_, from)| *from = 0);
        }
        self
    }

    /// The read shows this text.
    fn shows(self, text: &[u8]) -> Step {
        let shown = text.to_vec();
        Step { shown, ..self }.field(LENGTH, text.len() as u64)
    }
}

/// A list of commands for one card.
pub struct Trial {
    /// Its place in [`NAMES`].
    pub name: &'static str,
    /// What the card holds at first, its original with it; a fresh image if
    /// none.
    pub stored: Option<(Entry, &'static [u8])>,
    /// Whether the list keeps the premise (rule 9.5).
    pub premise: bool,
    /// The language of its translations: 0 in version 1; none if it is about
    /// several.
    pub language: Option<u8>,
    steps: Vec<Step>,
}

impl Trial {
    fn new(name: &'static str, steps: Vec<Step>) -> Trial {
        Trial {
            name,
            stored: None,
            premise: true,
            language: Some(0),
            steps,
        }
    }

    /// The same trial in version 2, its translations into this language.
    fn again(self, language: u8) -> Trial {
        let steps = self.steps.into_iter();
        Trial {
            language: Some(language),
            steps: steps.map(|step| step.again(language)).collect(),
            ..self
        }
    }
}

/// All that is tried.
pub const NAMES: [&str; 19] = [
    "a", "b", "c", "d", "e", "f", "g", "h", "i", "j", "k", "l", "m", "n", "P", "slip 1", "slip 2",
    "slip 3", "pairs",
];

/// Verify commands, and the number of each.
fn verified(list: &[(u8, Pair, u8)]) -> Vec<Step> {
    list.iter()
        .map(|&(mode, pair, number)| step(command(VERIFY, mode, pair), number))
        .collect()
}

/// The trials that are commands in a store with room C.
pub fn trials(format: Format, room: u64) -> Vec<Trial> {
    if format == Format::V1 {
        return of_version_1(room);
    }
    let again = |language| {
        let trials = of_version_1(room).into_iter();
        trials.map(move |trial| trial.again(language))
    };
    (0..4).flat_map(again).chain(of_languages()).collect()
}

/// The trials in version 1.
fn of_version_1(room: u64) -> Vec<Trial> {
    let mut all = guarded();
    all.extend(nothing_written());
    all.extend(full(room as usize));
    all.extend(last_edition());
    for length in [0, 1, 2, room as usize - 1, room as usize] {
        all.extend(buffers(length));
    }
    all.push(Trial::new("P", case_p_steps()));
    all.extend(slips());
    all.extend(two_pairs());
    all
}

/// Trials a to d.
fn guarded() -> Vec<Trial> {
    let a_list = [
        (SHARED, a(), 0),
        (SHARED, a(), 0),
        (EXCLUSIVE, a_prime(), 0),
        (SHARED, b(), 0),
        (EXCLUSIVE, b_prime(), 0),
        (EXCLUSIVE, b_prime(), 0),
    ];
    let b_list = [&a_list[..], &[(EXCLUSIVE, a_prime(), 3)]].concat();
    let c_list = [
        (SHARED, a(), 0),
        (SHARED, Pair::new(at(2, 2), 0), 0),
        (SHARED, a(), 0),
        (EXCLUSIVE, a_prime(), 3),
    ];
    let d_list = [
        (EXCLUSIVE, a_prime(), 0),
        (SHARED, Pair::new(at(0, 2), at(1, 1)), 0),
        (EXCLUSIVE, a_prime(), 0),
    ];
    let d = Trial {
        premise: false,
        ..Trial::new("d", verified(&d_list))
    };
    vec![
        Trial::new("a", verified(&a_list)),
        Trial::new("b", verified(&b_list)),
        Trial::new("c", verified(&c_list)),
        d,
    ]
}

/// Trials e and f, in either mode.
fn nothing_written() -> Vec<Trial> {
    let reads = |act, number| {
        let read = |mode| step(command(act, mode, a_prime()), number).shows(b"");
        vec![read(SHARED), read(EXCLUSIVE)]
    };
    vec![
        Trial::new("e", reads(READ_ORIGINAL, 0)),
        Trial::new("f", reads(READ_TRANSLATION, 6)),
    ]
}

/// Trials g and h, in either language.
fn full(room: usize) -> Vec<Trial> {
    let writes = |length: usize, number| {
        let text = vec![b'x'; length];
        [
            step(write_original(a_prime(), &text), number),
            step(write_translation(a_prime(), 1, &text), number),
        ]
    };
    let mut too_long = Vec::from(writes(room + 1, 5));
    too_long.push(step(command(VERIFY, EXCLUSIVE, b_prime()), 0));
    too_long.extend(writes(room + 1, 3));
    vec![
        Trial::new("g", writes(room, 0).into()),
        Trial::new("h", too_long),
    ]
}

/// Trials i and j; what i wrote is there after j.
fn last_edition() -> Vec<Trial> {
    let write = |text, number| step(write_original(a_prime(), text), number).field(EDITION, 65_535);
    let read = || step(command(READ_ORIGINAL, SHARED, a_prime()), 0).lent(5);
    let trial = |name, steps| Trial {
        stored: Some((entry(65_534, 0), b"before")),
        ..Trial::new(name, steps)
    };
    let i = vec![write(b"after", 0), read().shows(b"after")];
    let j = vec![
        write(b"after", 0),
        write(b"again", 7),
        read().shows(b"after"),
    ];
    vec![trial("i", i), trial("j", j)]
}

/// Trials k and l, in either language, for texts of so many bytes.
fn buffers(length: usize) -> Vec<Trial> {
    let (original, translation) = (vec![b'o'; length], vec![b't'; length]);
    let written = || {
        vec![
            step(write_original(a_prime(), &original), 0),
            step(write_translation(a_prime(), 1, &translation), 0),
        ]
    };
    let read = |act, number| step(command(act, SHARED, a_prime()), number);
    let mut k = written();
    for (act, text) in [(READ_ORIGINAL, &original), (READ_TRANSLATION, &translation)] {
        k.push(read(act, 0).lent(length).shows(text));
        k.push(read(act, 0).lent(length + 1).shows(text));
    }
    let mut all = vec![Trial::new("k", k)];
    if let Some(short) = length.checked_sub(1) {
        let mut l = written();
        l.extend([READ_ORIGINAL, READ_TRANSLATION].map(|act| read(act, 8).lent(short).shows(b"")));
        all.push(Trial::new("l", l));
    }
    all
}

/// The three slips.
fn slips() -> Vec<Trial> {
    let edition_decides = vec![
        step(write_original(a_prime(), b"one"), 0),
        step(write_translation(a_prime(), 1, b"un"), 0),
        step(write_original(a_prime(), b"two"), 0),
        step(command(READ_TRANSLATION, SHARED, a_prime()), 6)
            .lent(16)
            .shows(b""),
    ];
    let small = Pair::new(at(0, 2), at(2, 2));
    let older = Pair::new(at(1, 1), at(2, 2));
    let larger_of_each = vec![
        step(command(VERIFY, EXCLUSIVE, b_prime()), 0),
        step(command(VERIFY, SHARED, small), 0)
            .field(S, at(2, 2))
            .field(X, at(2, 2)),
        step(command(VERIFY, EXCLUSIVE, older), 3),
    ];
    let mut read = fields(READ_ORIGINAL, EXCLUSIVE, b_prime());
    read.next = Mark::new(1, 1);
    let short_raises_nothing = vec![
        step(write_original(a_prime(), b"text"), 0),
        step(read.with_payload(b""), 8)
            .lent(3)
            .field(S, at(1, 1))
            .field(X, at(1, 1)),
        step(command(VERIFY, EXCLUSIVE, a_prime()), 0),
    ];
    vec![
        Trial::new("slip 1", edition_decides),
        Trial::new("slip 2", larger_of_each),
        Trial::new("slip 3", short_raises_nothing),
    ]
}

/// A verify command with a verifier and an update pair, that gets this number.
fn opens(mode: u8, verifier: Pair, update: Pair, number: u8) -> Step {
    let mut fields = fields(VERIFY, mode, verifier);
    fields.update = update;
    step(fields.with_payload(b""), number)
}

/// Sessions opened inside a command: out of no stamps and out of an older
/// pair, which then is late.
fn sessions_opened() -> Vec<Step> {
    let newer = Pair::new(at(1, 1), at(2, 1));
    let mut first = fields(WRITE_ORIGINAL, EXCLUSIVE, Pair::default());
    first.update = a_prime();
    vec![
        step(first.with_payload(b"205"), 0).all_fields([at(1, 1), at(1, 1), 0, 0, 1, 0, 0]),
        step(write_translation(a_prime(), 1, b"401"), 0),
        opens(EXCLUSIVE, a_prime(), newer, 0).all_fields([at(1, 1), at(2, 1), 0, 0, 1, 1, 0]),
        step(command(VERIFY, EXCLUSIVE, newer), 0),
        step(command(VERIFY, EXCLUSIVE, a_prime()), 3),
    ]
}

/// Shared verifiers without s; the larger of each stamp is kept.
fn without_s() -> Vec<Step> {
    let verifier = Pair::new(0, at(1, 1));
    let low = Pair::new(at(0, 3), at(1, 1));
    let opened = |update| {
        let step = opens(SHARED, verifier, update, 0);
        step.field(S, at(2, 2)).field(X, at(1, 1))
    };
    vec![
        step(command(VERIFY, EXCLUSIVE, a_prime()), 0),
        opened(b()),
        opened(low),
    ]
}

/// Verifiers that come late, though their update pair would not.
fn late_verifiers() -> Vec<Step> {
    let newest = Pair::new(at(3, 3), at(3, 3));
    let (old_x, old_s) = (b(), Pair::new(at(1, 1), at(2, 2)));
    vec![
        step(command(VERIFY, EXCLUSIVE, b_prime()), 0),
        opens(EXCLUSIVE, old_x, newest, 3).field(X, at(2, 2)),
        opens(SHARED, old_x, newest, 3).field(S, at(2, 2)),
        opens(EXCLUSIVE, old_s, newest, 3),
        opens(SHARED, old_s, newest, 0).field(S, at(3, 3)),
    ]
}

/// Commands with two pairs on a fresh card.
fn two_pairs() -> Vec<Trial> {
    let trial = |steps| Trial::new("pairs", steps);
    let none = Pair::default();
    let accepted = [
        (EXCLUSIVE, a_prime(), a_prime()),
        (EXCLUSIVE, Pair::new(at(2, 2) - 1, at(2, 2) - 1), b_prime()),
        (SHARED, none, Pair::new(at(2, 2), 0)),
        (EXCLUSIVE, none, Pair::new(0, at(2, 2))),
    ];
    let accepted = accepted.map(|(mode, verifier, update)| {
        let step = opens(mode, verifier, update, 0);
        trial(vec![step.field(S, update.s).field(X, update.x)])
    });
    let malformed = malformed_pairs().map(|(mode, verifier, update)| {
        // What is malformed raises nothing.
        let next = step(command(VERIFY, SHARED, a()), 0);
        let next = next.field(S, at(1, 1)).field(X, 0);
        trial(vec![opens(mode, verifier, update, 1), next])
    });
    let without_s = Trial {
        // 0.3.0 is not above the s of the exclusive command under 1.1.0.
        premise: false,
        ..trial(without_s())
    };
    let mut all = vec![trial(sessions_opened()), without_s, trial(late_verifiers())];
    all.extend(accepted);
    all.extend(malformed);
    all
}

/// Modes, verifiers and update pairs that make a command malformed.
fn malformed_pairs() -> impl Iterator<Item = (u8, Pair, Pair)> {
    let (none, below) = (Pair::default(), at(2, 2) - 1);
    let third = at(3, 3);
    [
        // Half of it zero is not all of it zero.
        (EXCLUSIVE, a_prime(), Pair::new(0, at(2, 2))),
        (SHARED, a_prime(), Pair::new(at(2, 2), 0)),
        // Below the verifier by one.
        (EXCLUSIVE, b_prime(), Pair::new(below, third)),
        (EXCLUSIVE, b_prime(), Pair::new(third, below)),
        (SHARED, b_prime(), Pair::new(below, third)),
        (SHARED, b_prime(), Pair::new(third, below)),
        // Stamps without a desk, in the update pair and in the verifier.
        (EXCLUSIVE, none, Pair::new(1 << 32, at(1, 1))),
        (EXCLUSIVE, none, Pair::new(at(1, 1), 1 << 32)),
        (EXCLUSIVE, Pair::new(5, 0), a_prime()),
        (EXCLUSIVE, Pair::new(0, 5), a_prime()),
        // No stamp of the mode's own, where either pair is the update pair.
        (SHARED, none, Pair::new(0, at(2, 2))),
        (EXCLUSIVE, none, Pair::new(at(2, 2), 0)),
        (SHARED, Pair::new(0, at(2, 2)), none),
        (EXCLUSIVE, Pair::new(at(2, 2), 0), none),
    ]
    .into_iter()
}

/// What is tried of several languages at once, in version 2.
pub const LANGUAGE_NAMES: [&str; 7] = [
    "each language",
    "one behind",
    "all behind",
    "no language",
    "bytes 21 to 35",
    "52 bytes",
    "update pair at 52",
];

/// Writes an original in version 2.
fn original(text: &[u8]) -> Vec<u8> {
    into(0, fields(WRITE_ORIGINAL, EXCLUSIVE, a_prime())).with_payload(text)
}

/// Writes a translation into a language, made from this edition; it is accepted.
fn translates(language: u8, edition: u16, text: &[u8]) -> Step {
    let fields = fields(WRITE_TRANSLATION, EXCLUSIVE, a_prime());
    let command = into(language, CommandFields { edition, ..fields });
    step(command.with_payload(text), 0).field(FROM, edition.into())
}

/// Reads the translation into a language: the number, translated-from, the
/// text.
fn reads(language: u8, number: u8, from: u64, text: &[u8]) -> Step {
    let command = into(language, fields(READ_TRANSLATION, EXCLUSIVE, a_prime()));
    let step = step(command.with_payload(b""), number).lent(16);
    step.field(FROM, from).shows(text)
}

/// A verify command of version 2, that gets this number.
fn verify(change: impl FnOnce(&mut CommandFields), number: u8) -> Step {
    let mut fields = into(0, fields(VERIFY, EXCLUSIVE, a_prime()));
    change(&mut fields);
    step(fields.with_payload(b""), number)
}

/// Languages beside each other, and what is malformed in version 2 alone.
fn of_languages() -> Vec<Trial> {
    let steps = [
        each_language(),
        one_behind(),
        all_behind(),
        no_language(),
        nonzero_bytes(),
        short_commands(),
        update_at_52(),
    ];
    let trials = LANGUAGE_NAMES.into_iter().zip(steps);
    let trial = |(name, steps)| Trial {
        language: None,
        ..Trial::new(name, steps)
    };
    trials.map(trial).collect()
}

const TEXTS: [&[u8]; 4] = [b"ABCDEFGHIJKLMNOP", b"", b"deux", b"t"];

fn each_language() -> Vec<Step> {
    let mut steps = vec![step(original(b"205"), 0)];
    for (language, text) in (0..).zip(TEXTS) {
        steps.push(reads(language, 6, 0, b""));
        steps.push(translates(language, 1, text));
    }
    steps.extend((0..).zip(TEXTS).map(|(at, text)| reads(at, 0, 1, text)));
    // Once more, in the other order, with a longer text and a shorter one.
    steps.push(translates(3, 1, b"three"));
    steps.push(translates(0, 1, b"A"));
    let texts: [&[u8]; 4] = [b"A", b"", b"deux", b"three"];
    steps.extend((0..).zip(texts).map(|(at, text)| reads(at, 0, 1, text)));
    steps
}

fn one_behind() -> Vec<Step> {
    vec![
        step(original(b"one"), 0),
        translates(0, 1, b"uno"),
        translates(1, 1, b"un"),
        step(original(b"two"), 0).field(FROM, 1),
        translates(2, 2, b"zwei"),
        reads(0, 6, 1, b""),
        reads(1, 6, 1, b""),
        reads(2, 0, 2, b"zwei"),
        reads(3, 6, 0, b""),
        translates(1, 2, b"deux"),
        reads(1, 0, 2, b"deux"),
        reads(0, 6, 1, b""),
        // For an act without a language translated-from is language 0's.
        verify(|_| {}, 0).field(FROM, 1).field(EDITION, 2),
        step(original(b"three"), 0).field(FROM, 1),
    ]
}

fn all_behind() -> Vec<Step> {
    let mut steps = vec![step(original(b"205"), 0)];
    steps.extend((0..4).map(|language| translates(language, 1, b"401")));
    steps.extend((0..4).map(|language| reads(language, 0, 1, b"401")));
    steps.push(step(original(b"205"), 0).field(EDITION, 2));
    steps.extend((0..4).map(|language| reads(language, 6, 1, b"")));
    steps
}

fn no_language() -> Vec<Step> {
    let mut steps = vec![step(original(b"205"), 0)];
    for language in [4, 5, 0x80, 0xff] {
        let Step { command, .. } = reads(language, 1, 0, b"");
        steps.push(step(command, 1).lent(16));
        let Step { command, .. } = translates(language, 1, b"401");
        steps.push(step(command, 1));
    }
    for language in [1, 2, 3, 4, 0xff] {
        steps.push(verify(|fields| fields.language = language, 1));
        let mut written = original(b"206");
        written[20] = language;
        steps.push(step(written, 1));
        steps.push(
            verify(
                |fields| (fields.act, fields.language) = (READ_ORIGINAL, language),
                1,
            )
            .lent(16),
        );
    }
    steps.push(
        verify(|fields| fields.act = READ_ORIGINAL, 0)
            .lent(3)
            .shows(b"205"),
    );
    steps
}

fn nonzero_bytes() -> Vec<Step> {
    let broken = |at: usize| verify(|fields| fields.reserved[at] = 1, 1);
    let mut steps: Vec<Step> = (0..15).map(broken).collect();
    // An update pair of version 1 stands in those bytes, and in the language.
    let mut old = command(VERIFY, EXCLUSIVE, a_prime());
    old[20..36].copy_from_slice(&[b_prime().s, b_prime().x].map(u64::to_le_bytes).concat());
    old.extend([0; 16]);
    steps.push(step(old, 1));
    steps.push(verify(|_| {}, 0).field(S, at(1, 1)).field(X, at(1, 1)));
    steps
}

fn short_commands() -> Vec<Step> {
    let Step { command: whole, .. } = verify(|_| {}, 0);
    let mut steps: Vec<Step> = [0, 1, 51, 52, 53, 67]
        .map(|length| step(whole[..length].to_vec(), 1))
        .into();
    steps.push(step(command(VERIFY, EXCLUSIVE, a_prime()), 1));
    steps.push(step([&whole[..], &[0]].concat(), 1));
    steps.push(step(whole, 0));
    steps
}

fn update_at_52() -> Vec<Step> {
    let third = Pair::new(at(3, 3), at(3, 3));
    let opens = |verifier, update, number| {
        verify(
            |fields| (fields.pair, fields.update) = (verifier, update),
            number,
        )
    };
    let stored = |step: Step, pair: Pair| step.field(S, pair.s).field(X, pair.x);
    vec![
        stored(opens(Pair::default(), b_prime(), 0), b_prime()),
        stored(opens(a_prime(), third, 3), b_prime()),
        stored(opens(b_prime(), third, 0), third),
        opens(third, Pair::new(0, at(3, 3)), 1),
        opens(third, Pair::new(at(3, 3), at(3, 3) - 1), 1),
        opens(Pair::default(), Pair::new(at(4, 4), 0), 1),
        stored(
            opens(third, Pair::new(at(1_000_004, 3), at(3, 3)), 17),
            third,
        ),
    ]
}

/// The commands of case P and their lines.
fn case_p_steps() -> Vec<Step> {
    let (older, newer) = (4_295_032_832, 8_590_065_664);
    let first = |number| step(write_original(a_prime(), b"205"), number);
    vec![
        first(0).all_fields([older, older, 0, 0, 1, 0, 0]),
        step(command(READ_TRANSLATION, SHARED, b()), 6)
            .lent(16)
            .all_fields([older, older, 0, 0, 1, 0, 0]),
        step(write_translation(b_prime(), 1, b"401"), 0).all_fields([newer, newer, 0, 0, 1, 1, 0]),
        first(3).all_fields([newer, newer, 0, 0, 1, 1, 0]),
    ]
}

/// The whole output of case P.
pub const CASE_P_OUTPUT: &str = "\
cards 1
1 0 4295032832 4295032832 0 0 1 0 0
2 6 4295032832 4295032832 0 0 1 0 0
3 0 8590065664 8590065664 0 0 1 1 0
4 3 8590065664 8590065664 0 0 1 1 0
cut 5
";

/// The standard input of case P, with five more bytes.
pub fn case_p_input() -> Vec<u8> {
    let mut input = fresh(1, 16);
    for step in case_p_steps() {
        input.extend(step.command);
    }
    input.extend([1, 2, 3, 4, 5]);
    input
}

/// Trial m: N, C, the lent bytes, and the number.
fn making(format: Format) -> [(u64, u64, usize, u8); 2] {
    match format {
        Format::V1 => [(31, 1_024, 64_496, 0), (32, 1_024, 66_576, 14)],
        Format::V2 => [(12, 1_024, 62_032, 0), (13, 1_024, 67_200, 14)],
    }
}

/// A turn; its number, whether the desk then holds the lock, entries looked at.
type TurnStep = (Turn, u8, bool, u64);

/// Trial n: 32 desks stand in 32 places, one leaves, and after that each row is
/// tried.
fn queue_trials() -> Vec<Vec<TurnStep>> {
    let asker = |desk| Place::new(SHARED, at(1, desk), 0);
    let ask = |desk| Turn::Ask(asker(desk));
    let mut crowded: Vec<TurnStep> = (1..=32)
        .map(|desk| (ask(desk), 0, true, u64::from(desk) - 1))
        .collect();
    crowded.push((ask(33), 13, false, 32));
    crowded.push((Turn::Leave(5 << 16), 0, false, 5));
    let next: [&[TurnStep]; 5] = [
        &[
            (ask(33), 0, true, 31),
            (ask(34), 13, false, 32),
            (Turn::Leave(40 << 16), 15, false, 32),
        ],
        &[(ask(5), 0, true, 31)],
        &[(ask(6), 12, true, 5)],
        &[(
            Turn::Ask(Place::new(EXCLUSIVE, 0, at(9, 40))),
            11,
            false,
            31,
        )],
        &[(Turn::Ask(Place::new(0, at(1, 33), 0)), 1, false, 0)],
    ];
    next.map(|turns| [&crowded[..], turns].concat()).into()
}

/// The two are the same, or what is wrong.
fn same<T: PartialEq + std::fmt::Debug>(what: &str, found: T, wanted: T) -> Result<(), String> {
    match found == wanted {
        true => Ok(()),
        false => Err(format!("{what}: {found:x?}, not {wanted:x?}")),
    }
}

/// Runs the steps of a trial in a store.
pub fn run(tried: &mut impl Tried, store: Store, trial: &Trial) -> Result<(), String> {
    let Store {
        format,
        cards,
        room,
        card,
    } = store;
    let mut image = fresh_of(format, cards, room);
    image.iter_mut().for_each(|byte| *byte = !*byte);
    same("make", tried.make(format, &mut image, cards, room)?, 0)?;
    if let Some((entry, original)) = trial.stored {
        let layout = Layout::of_header(format, &image).ok_or("no header")?;
        put_texts(layout, &mut image, card, entry, &[original]);
    }
    for (count, step) in (1..).zip(&trial.steps) {
        let told = |wrong| format!("trial {}, {store:?}, command {count}: {wrong}", trial.name);
        run_step(tried, format, &mut image, card, step).map_err(told)?;
    }
    Ok(())
}

/// Runs one command: its number, the fields, and each byte of the reply
/// buffer.
fn run_step(
    tried: &mut impl Tried,
    format: Format,
    image: &mut [u8],
    card: u16,
    step: &Step,
) -> Result<(), String> {
    let command = match step.command.len() {
        0..4 => step.command.clone(),
        _ => on_card(card, step.command.clone()),
    };
    let mut reply = vec![0xaa; step.lent];
    let mut wanted = reply.clone();
    wanted[..step.shown.len()].copy_from_slice(&step.shown);
    let (number, fields) = tried.answer(format, image, &command, &mut reply)?;
    same("number", number, step.number)?;
    for &(at, value) in &step.fields {
        same("field", (at, fields[at]), (at, value))?;
    }
    same("reply", reply, wanted)
}

/// Trial m.
pub fn run_making(tried: &mut impl Tried, format: Format) -> Result<(), String> {
    for (cards, room, length, wanted) in making(format) {
        let mut image = vec![0xee; length];
        let made = tried.make(format, &mut image, cards, room)?;
        same("trial m", made, wanted)?;
        let kept = image.iter().all(|&byte| byte == 0xee);
        same("trial m, nothing written", kept, wanted != 0)?;
    }
    Ok(())
}

/// Trial n.
pub fn run_queues(tried: &mut impl Tried) -> Result<(), String> {
    for turns in queue_trials() {
        let mut queue = Kept::new(32, &[]);
        for (turn, number, holds, looked_at) in turns {
            let (found, fields) = tried.turn(&mut queue, turn)?;
            let found = (found, fields[0], fields[3]);
            same("trial n", found, (number, holds.into(), looked_at))?;
        }
    }
    Ok(())
}

/// Case P through the program.
pub fn run_case_p(tried: &mut impl Tried) -> Result<(), String> {
    let printed = tried.output(&case_p_input())?;
    same("case P", printed.as_str(), CASE_P_OUTPUT)
}
