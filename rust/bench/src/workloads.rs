//! What is measured: images, streams of commands for them, and the number
//! that each of these commands gets.

use second::random::Random;
use second::{CommandFields, Entry, Format, Language, Layout, Mark, Pair};

/// The usual image: N 31 and C 512.
const CARDS: u64 = 31;
const ROOM: u64 = 512;
/// As many cards as version 2 has with that room.
const CARDS_V2: u64 = 25;
/// The usual stream, in bytes.
const STREAM: usize = 30_000;
/// As many bytes as the program reads: an image and a stream.
const INPUT: usize = 65_536;

/// How long the texts of an image are at first.
#[derive(Clone, Copy)]
pub enum Texts {
    Empty,
    Mixed,
    Full,
}

impl Texts {
    const ALL: [(&'static str, Texts); 3] = [
        ("empty", Texts::Empty),
        ("mixed", Texts::Mixed),
        ("full", Texts::Full),
    ];

    fn length(self, random: &mut Random) -> u64 {
        match self {
            Texts::Empty => 0,
            Texts::Mixed => random.between(0, ROOM),
            Texts::Full => ROOM,
        }
    }
}

/// What is done with a workload.
#[derive(Clone, Copy)]
pub enum Work {
    /// The whole stream is run.
    Run(Format),
    /// The first command alone is answered.
    Answer(Format),
    /// The image alone is checked, by its version.
    Check(Format),
}

impl Work {
    /// The version of the image and of the stream.
    pub fn format(self) -> Format {
        match self {
            Work::Run(format) | Work::Answer(format) | Work::Check(format) => format,
        }
    }
}

/// One thing to measure.
pub struct Workload {
    /// The part of the table that it stands in.
    pub group: &'static str,
    /// Its name there.
    pub name: String,
    /// What is done.
    pub work: Work,
    /// The image before.
    pub image: Vec<u8>,
    /// The stream.
    pub stream: Vec<u8>,
    /// How long the lent reply buffer is.
    pub reply: usize,
    /// The number that every command gets.
    pub number: u64,
}

impl Workload {
    /// How many commands the stream has.
    pub fn commands(&self) -> usize {
        let fixed = self.work.format().command_bytes();
        let (mut at, mut count) = (0, 0);
        while let Some(length) = self.stream.get(at + 50..at + 52) {
            at += fixed + usize::from(u16::from_le_bytes([length[0], length[1]]));
            count += 1;
        }
        count
    }

    /// The first command of the stream.
    pub fn first(&self) -> &[u8] {
        let length = u16::from_le_bytes([self.stream[50], self.stream[51]]);
        let fixed = self.work.format().command_bytes();
        &self.stream[..fixed + usize::from(length)]
    }
}

fn stamp(t: u64, desk: u64) -> u64 {
    t << 32 | desk << 16
}

/// The mark that stands on every card where marks are in use.
const MARK: Mark = Mark {
    desk: 3,
    transaction: 7,
};

/// Where the stamps of an image and of its commands begin.
const START: u64 = 1_000;

/// An image of so many cards, each at edition 1 with a translation made from
/// it. Its stamps have T 1,000, but x is zero where `shared`.
fn image(cards: u64, texts: Texts, shared: bool, mark: Mark, random: &mut Random) -> Vec<u8> {
    image_of(Format::V1, cards, texts, shared, mark, random)
}

/// The same of a version, with every translation that it has.
fn image_of(
    format: Format,
    cards: u64,
    texts: Texts,
    shared: bool,
    mark: Mark,
    random: &mut Random,
) -> Vec<u8> {
    let layout = Layout::new(format, cards, ROOM).expect("a shape by the rules");
    let mut image = vec![0; layout.size()];
    image[..16].copy_from_slice(&layout.header());
    for card in 0..cards as u16 {
        let mut entry = Entry {
            pair: Pair::new(stamp(START, 1), if shared { 0 } else { stamp(START, 1) }),
            mark,
            edition: 1,
            ..Entry::default()
        };
        let mut languages = vec![Language::Original];
        languages.extend((0..format.translations() as u8).map(Language::Translation));
        for language in languages {
            let length = texts.length(random);
            let text: Vec<u8> = (0..length).map(|_| random.byte() | 1).collect();
            layout.put_text(&mut image, card, language, &text);
            match language {
                Language::Original => entry.original_length = length as u16,
                Language::Translation(t) => {
                    entry.translations[t as usize].from = 1;
                    entry.translations[t as usize].length = length as u16;
                }
            }
        }
        layout.put_entry(&mut image, card, entry);
    }
    image
}

/// Which acts a stream has, and how long its payloads are.
#[derive(Clone, Copy)]
enum Acts {
    Verify,
    WriteFull,
    WriteSmall,
    Read,
    Mix,
}

impl Acts {
    const ALL: [(&'static str, Acts); 5] = [
        ("verify", Acts::Verify),
        ("write 512", Acts::WriteFull),
        ("write 10-40", Acts::WriteSmall),
        ("read", Acts::Read),
        ("mix", Acts::Mix),
    ];

    /// An act and the length of its payload, if it writes.
    fn draw(self, random: &mut Random) -> (u8, u64) {
        match self {
            Acts::Verify => (5, 0),
            Acts::WriteFull => (random.pick(&[3, 4]), ROOM),
            Acts::WriteSmall => (random.pick(&[3, 4]), random.between(10, 40)),
            Acts::Read => (random.pick(&[1, 2]), 0),
            Acts::Mix => {
                let most = if random.one_in(4) { ROOM } else { 40 };
                (random.pick(&[1, 2, 3, 4, 5]), random.between(10, most))
            }
        }
    }
}

/// How the commands of a stream of accepted ones are sent.
#[derive(Clone, Copy, PartialEq, Eq)]
enum Manner {
    Exclusive,
    SharedWithoutX,
    WithMarks,
    WithUpdatePair,
}

/// A stream of accepted commands for the image above, of at most so many bytes.
fn accepted(cards: u64, size: usize, acts: Acts, manner: Manner, random: &mut Random) -> Vec<u8> {
    accepted_of(Format::V1, cards, size, acts, manner, random)
}

/// The same of a version, with every language that it has.
fn accepted_of(
    format: Format,
    cards: u64,
    size: usize,
    acts: Acts,
    manner: Manner,
    random: &mut Random,
) -> Vec<u8> {
    let mut bytes = Vec::new();
    let mut editions = vec![(1_u16, [1_u16; 4]); cards as usize];
    let mut t = START;
    loop {
        let (act, length) = acts.draw(random);
        let card = random.below(cards) as u16;
        let language = match (format, act) {
            (Format::V2, 2 | 4) => random.below(4) as u8,
            _ => 0,
        };
        let (edition, froms) = &mut editions[usize::from(card)];
        let from = &mut froms[usize::from(language)];
        // a translation that is behind is not read: the original is
        let (act, language) = if act == 2 && *from != *edition {
            (1, 0)
        } else {
            (act, language)
        };
        let writes = act == 3 || act == 4;
        let payload: Vec<u8> = (0..if writes { length } else { 0 })
            .map(|_| random.byte() | 1)
            .collect();
        if bytes.len() + format.command_bytes() + payload.len() > size {
            return bytes;
        }
        t += 1;
        let own = stamp(t, random.between(1, 9));
        let mut fields = CommandFields {
            format,
            act,
            language,
            mode: 2,
            card,
            pair: Pair::new(own, own),
            ..CommandFields::default()
        };
        match manner {
            Manner::Exclusive => {}
            Manner::SharedWithoutX => {
                fields.mode = 1;
                fields.pair.x = 0;
            }
            Manner::WithMarks => {
                fields.expected = MARK;
                fields.next = MARK;
            }
            Manner::WithUpdatePair => {
                fields.update = Pair::new(own + (1 << 32), own + (1 << 32));
                t += 1;
            }
        }
        if act == 3 {
            *edition += 1;
        }
        if act == 4 {
            fields.edition = *edition;
            *from = *edition;
        }
        bytes.extend(fields.with_payload(&payload));
    }
}

/// A stream of commands that are all refused with this number, for an image of
/// full texts at edition 65,535, with translations that are behind.
fn refused(number: u64, random: &mut Random) -> Vec<u8> {
    let mut bytes = Vec::new();
    let mut t = START;
    while bytes.len() < STREAM {
        t += 1;
        let own = stamp(t, random.between(1, 9));
        let mut fields = CommandFields {
            act: 5,
            mode: 2,
            card: random.below(CARDS) as u16,
            pair: Pair::new(own, own),
            ..CommandFields::default()
        };
        let mut payload = Vec::new();
        match number {
            1 => match random.below(5) {
                0 => fields.act = 6,
                1 => fields.mode = 0,
                2 => fields.pair.x &= !0xffff_ffff,
                3 => fields.expected.desk = 1,
                _ => fields.edition = 1,
            },
            2 => fields.card = random.between(CARDS, 65_535) as u16,
            3 => fields.pair.x = stamp(START - 1, 1),
            17 => fields.pair.s = stamp(START + 1_000_001, 1),
            4 => fields.expected = MARK,
            5 => {
                fields.act = 3;
                payload = random.bytes(ROOM as usize + 1);
            }
            6 => {
                fields.act = random.pick(&[2, 4]);
                fields.edition = if fields.act == 4 { 7 } else { 0 };
            }
            7 => fields.act = 3,
            8 => fields.act = 1,
            _ => {}
        }
        bytes.extend(fields.with_payload(&payload));
    }
    bytes
}

/// Every entry at edition 65,535, with its translation from 1.
fn spent(mut image: Vec<u8>) -> Vec<u8> {
    for card in 0..CARDS as usize {
        image[16 + 32 * card + 24..][..2].fill(0xff);
    }
    image
}

/// The groups of workloads, as the table and the picture head them.
const ACCEPTED: &str = "Accepted commands: streams of 30,000 bytes, N 31 and C 512";
const MANNERS: &str = "Shared without x, marks, update pairs (full texts)";
const REFUSED: &str = "Refused: every command of the stream gets that number";
const CHECK: &str = "The check of an image alone (version 2: N 25 and C 512)";
const ALONE: &str = "One answer alone";
const IMAGES: &str = "The same stream on larger images";
const STREAMS: &str = "Longer streams on the same image";
const VERSION_2: &str = "Version 2: streams of 30,000 bytes and one answer alone, N 25 and C 512";

fn run_of(group: &'static str, name: String, image: Vec<u8>, stream: Vec<u8>) -> Workload {
    Workload {
        group,
        name,
        work: Work::Run(Format::V1),
        image,
        stream,
        reply: ROOM as usize,
        number: 0,
    }
}

/// The workloads, in the order of the table. The same seed gives the same
/// bytes everywhere.
pub fn all() -> Vec<Workload> {
    let mut random = Random::new(11);
    let mut all = Vec::new();
    streams(&mut all, &mut random);
    manners(&mut all, &mut random);
    refusals(&mut all, &mut random);
    checks(&mut all, &mut random);
    growth(&mut all, &mut random);
    version_2(&mut all, &mut random);
    all
}

fn streams(all: &mut Vec<Workload>, random: &mut Random) {
    for (texts_name, texts) in Texts::ALL {
        for (acts_name, acts) in Acts::ALL {
            let start = image(CARDS, texts, false, Mark::default(), random);
            let stream = accepted(CARDS, STREAM, acts, Manner::Exclusive, random);
            let name = format!("{acts_name}, {texts_name} texts");
            all.push(run_of(ACCEPTED, name, start, stream));
        }
    }
}

fn manners(all: &mut Vec<Workload>, random: &mut Random) {
    let full = Texts::Full;
    let shared = image(CARDS, full, true, Mark::default(), random);
    for (name, acts) in [("verify", Acts::Verify), ("read", Acts::Read)] {
        let stream = accepted(CARDS, STREAM, acts, Manner::SharedWithoutX, random);
        let name = format!("{name}, shared with x zero");
        all.push(run_of(MANNERS, name, shared.clone(), stream));
    }
    let marked = image(CARDS, full, false, MARK, random);
    let stream = accepted(CARDS, STREAM, Acts::Mix, Manner::WithMarks, random);
    all.push(run_of(MANNERS, "mix, marks in use".into(), marked, stream));
    let start = image(CARDS, full, false, Mark::default(), random);
    let stream = accepted(CARDS, STREAM, Acts::Mix, Manner::WithUpdatePair, random);
    all.push(run_of(MANNERS, "mix, update pairs".into(), start, stream));
}

fn refusals(all: &mut Vec<Workload>, random: &mut Random) {
    let start = spent(image(CARDS, Texts::Full, false, Mark::default(), random));
    for number in [1, 2, 3, 17, 4, 5, 6, 7, 8, 9] {
        let mut start = start.clone();
        if number == 9 {
            // the last card's zero field, so that the whole image is looked at
            start[16 + 32 * (CARDS as usize - 1) + 18] = 1;
        }
        let stream = refused(number, random);
        let name = format!("refused with {number}");
        let reply = if number == 8 { 511 } else { ROOM as usize };
        all.push(Workload {
            number,
            reply,
            ..run_of(REFUSED, name, start, stream)
        });
    }
}

fn checks(all: &mut Vec<Workload>, random: &mut Random) {
    for (format, cards, version) in [
        (Format::V1, CARDS, ""),
        (Format::V2, CARDS_V2, ", version 2"),
    ] {
        for (name, texts) in Texts::ALL {
            let start = image_of(format, cards, texts, false, Mark::default(), random);
            let name = format!("check, {name} texts{version}");
            all.push(Workload {
                work: Work::Check(format),
                ..run_of(CHECK, name, start, Vec::new())
            });
        }
    }
    for (name, acts) in [("verify", Acts::Verify), ("read", Acts::Read)] {
        let start = image(CARDS, Texts::Full, false, Mark::default(), random);
        let stream = accepted(CARDS, STREAM, acts, Manner::Exclusive, random);
        let name = format!("one answer, {name}, full texts");
        all.push(Workload {
            work: Work::Answer(Format::V1),
            ..run_of(ALONE, name, start, stream)
        });
    }
}

fn growth(all: &mut Vec<Workload>, random: &mut Random) {
    let stream = accepted(2, STREAM, Acts::Mix, Manner::Exclusive, random);
    for cards in [2, 4, 8, 16, 31, 62] {
        let start = image(cards, Texts::Mixed, false, Mark::default(), random);
        let name = format!("mix, image of {} bytes", start.len());
        all.push(run_of(IMAGES, name, start, stream.clone()));
    }
    for size in [3_000, 10_000, 30_000, 100_000, 300_000] {
        let start = image(CARDS, Texts::Full, false, Mark::default(), random);
        let stream = accepted(CARDS, size, Acts::Mix, Manner::Exclusive, random);
        let name = format!("mix, stream of {size} bytes");
        all.push(run_of(STREAMS, name, start, stream));
    }
}

fn version_2(all: &mut Vec<Workload>, random: &mut Random) {
    let format = Format::V2;
    let mut pushed = |name, work, acts, cards, random: &mut Random| {
        let mark = Mark::default();
        let start = image_of(format, cards, Texts::Full, false, mark, random);
        let size = STREAM.max(INPUT - start.len());
        let stream = accepted_of(format, cards, size, acts, Manner::Exclusive, random);
        all.push(Workload {
            work,
            ..run_of(VERSION_2, name, start, stream)
        });
    };
    for (name, acts) in Acts::ALL {
        let name = format!("{name}, full texts, version 2");
        pushed(name, Work::Run(format), acts, CARDS_V2, random);
    }
    for (name, acts) in [("verify", Acts::Verify), ("read", Acts::Read)] {
        let name = format!("one answer, {name}, full texts, version 2");
        pushed(name, Work::Answer(format), acts, CARDS_V2, random);
    }
    let name = "mix, 12 cards, in the program's sizes, version 2";
    pushed(name.into(), Work::Run(format), Acts::Mix, 12, random);
}
