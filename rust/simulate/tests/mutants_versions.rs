//! Wrong answers of version 2, of conversions, runs, the history engine and
//! texts, as in `mutants.rs`: each stops the simulation at the check that is
//! named here. `docs/RELIABILITY.md` has these rows too.

mod wrong;

use second::random::Random;
use second::Format;
use simulate::checks::Check;
use simulate::library::{Answer, Library, Proved};
use simulate::tally::Tally;
use simulate::town::{Shape, Town};
use wrong::{on_the_page, stopped};

/// A wrong answer, by what is wrong.
#[derive(Clone, Copy, Debug, PartialEq, Eq)]
enum Mutant {
    OldTaken,
    NewTaken,
    FifthLanguage,
    ZerosUnlooked,
    FromOfFirst,
    BehindRead,
    OtherLanguage,
    LanguagesShared,
    ConvertsMark,
    ConvertsInto1,
    ConvertsThenRefuses,
    ConvertsTooLarge,
    ConvertedFresh,
    ConvertedText,
    LineBefore,
    LinesCleared,
    CutIsEnd,
    OneLess,
    ReplyCleared,
    ImageKept,
    OldVersionRun,
    WalkBeyond,
    HistoryCounts,
    HistoryText,
    History199,
    HistoryPayload,
    FullReplies,
    RefusalKept,
    UsedShort,
    BeyondIsNothing,
    OverFull,
    NumbersOnly,
    HalfRefused,
    PlaceFromOne,
    PlaceInSecond,
    WordsCompared,
    SecondFirst,
    OneWay,
}

use Mutant::*;

/// Each mutant in words, and the check that stops it.
const ALL: &[(Mutant, &str, Check)] = &[
    (
        OldTaken,
        "a command of version 1 is malformed for a store of version 2",
        Check::OtherVersion,
    ),
    (
        NewTaken,
        "a command of version 2 raises the pair of a store of version 1",
        Check::OtherVersion,
    ),
    (FifthLanguage, "a fifth language is taken", Check::Number2),
    (
        ZerosUnlooked,
        "bytes 21 to 35 of a command are not looked at",
        Check::Number2,
    ),
    (
        FromOfFirst,
        "the reply's translated-from is always that of language 0",
        Check::Fields2,
    ),
    (
        BehindRead,
        "a language that is behind is read",
        Check::Behind2,
    ),
    (
        OtherLanguage,
        "a read shows a text of another language",
        Check::Shows2,
    ),
    (
        LanguagesShared,
        "writing one language writes another's translated-from",
        Check::Image2,
    ),
    (
        ConvertsMark,
        "a conversion forgets the commit mark",
        Check::Converted,
    ),
    (
        ConvertsInto1,
        "a conversion puts the translation's length in language 1",
        Check::Converted,
    ),
    (
        ConvertsThenRefuses,
        "a conversion is refused when its header is written",
        Check::Converted,
    ),
    (
        ConvertsTooLarge,
        "a conversion beyond 65,536 bytes is accepted",
        Check::Converted,
    ),
    (
        ConvertedFresh,
        "after a conversion nothing is stale",
        Check::AcrossLate,
    ),
    (
        ConvertedText,
        "after a conversion language 0 shows another text",
        Check::AcrossShows,
    ),
    (
        LineBefore,
        "a run's line has the pair before the command",
        Check::RunLines,
    ),
    (
        LinesCleared,
        "a run clears the numbers behind its last line",
        Check::RunLines,
    ),
    (
        OldVersionRun,
        "a run on an image of the other version says malformed",
        Check::RunLines,
    ),
    (
        WalkBeyond,
        "a stream ends behind a command that is cut",
        Check::Walk,
    ),
    (
        CutIsEnd,
        "a run stops behind a command that is cut",
        Check::RunEnd,
    ),
    (OneLess, "a run counts one command less", Check::RunEnd),
    (
        ReplyCleared,
        "a run clears the reply buffer first",
        Check::RunBuffers,
    ),
    (
        ImageKept,
        "a run that has room for no more lines leaves the image as it was",
        Check::RunBuffers,
    ),
    (
        HistoryCounts,
        "the history engine counts translations as editions",
        Check::History,
    ),
    (
        HistoryText,
        "the history engine shows another text",
        Check::History,
    ),
    (
        History199,
        "the history engine is full with 199 commands",
        Check::HistoryFull,
    ),
    (
        HistoryPayload,
        "the history engine is full with 32,767 bytes of payloads",
        Check::HistoryFull,
    ),
    (
        FullReplies,
        "22 replies the entry as it would be",
        Check::HistoryFull,
    ),
    (
        RefusalKept,
        "the history engine writes down what it refuses",
        Check::HistoryBytes,
    ),
    (
        UsedShort,
        "the used bytes end before the payload",
        Check::HistoryBytes,
    ),
    (
        BeyondIsNothing,
        "a number beyond the engine's bytes means that nothing is kept",
        Check::AnyHistory,
    ),
    (
        OverFull,
        "a history of more than 200 commands takes one more",
        Check::AnyHistory,
    ),
    (
        NumbersOnly,
        "drops are compared without their unit",
        Check::Agree,
    ),
    (HalfRefused, "half a degree is too far", Check::Agree),
    (PlaceFromOne, "the place is counted from 1", Check::Agree),
    (
        PlaceInSecond,
        "the place is that in the second text",
        Check::Agree,
    ),
    (WordsCompared, "words are compared", Check::Agree),
    (
        SecondFirst,
        "the second text is looked at before the first",
        Check::Agree,
    ),
    (
        OneWay,
        "two texts that differ agree the other way round",
        Check::EitherWay,
    ),
];

/// The proved library with one wrong answer.
struct Wrong {
    mutant: Mutant,
    /// Whether the store was converted and accepted nothing since, and whether
    /// language 0 was not written since.
    converted: bool,
    untouched: bool,
    /// How often two texts were compared.
    compared: u64,
    /// How many commands the engine beside the store has kept.
    kept: usize,
}

fn two(bytes: &[u8], at: usize) -> u64 {
    u64::from(bytes[at]) + 256 * u64::from(bytes[at + 1])
}

/// Where the entry of a command of version 2 stands.
fn entry_of(command: &[u8]) -> usize {
    16 + 48 * two(command, 2) as usize
}

impl Wrong {
    fn new(mutant: Mutant) -> Wrong {
        Wrong {
            mutant,
            converted: false,
            untouched: false,
            compared: 0,
            kept: 0,
        }
    }

    fn is(&self, mutant: Mutant) -> bool {
        self.mutant == mutant
    }

    /// What is wrong with a malformed command of version 2.
    fn malformed(
        &self,
        image: &mut [u8],
        command: &[u8],
        reply: &mut [u8],
        told: Answer,
    ) -> Answer {
        let mut right = command.to_vec();
        match self.mutant {
            FifthLanguage if command.len() >= 68 && command[20] > 3 => right[20] = 0,
            ZerosUnlooked if command.len() >= 68 => right[21..36].fill(0),
            _ => return told,
        }
        Proved.answer_v2(image, &right, reply)
    }

    /// Whether the engine is full with this command, one early.
    fn early(&self, end: usize) -> bool {
        match self.mutant {
            History199 => self.kept == 200,
            HistoryPayload => end - 52 * self.kept == 32_768,
            _ => false,
        }
    }

    /// What is wrong with an accepted command of version 2.
    fn accepted(&mut self, image: &mut [u8], command: &[u8], reply: &mut [u8], told: &mut Answer) {
        let (entry, language) = (entry_of(command), command[20]);
        match self.mutant {
            FromOfFirst => told.fields[5] = two(image, entry + 28),
            OtherLanguage if language > 0 && told.fields[6] > 0 => reply[0] ^= 1,
            LanguagesShared if command[0] == 4 => {
                let other = entry + 28 + 2 * ((usize::from(language) + 1) % 4);
                image[other] ^= 1;
            }
            ConvertedText if self.untouched && command[0] == 2 && language == 0 => {
                if let Some(first) = reply.first_mut().filter(|_| told.fields[6] > 0) {
                    *first ^= 1;
                }
            }
            _ => {}
        }
        self.untouched &= command[0] != 4 || language != 0;
        self.converted = false;
    }
}

impl Library for Wrong {
    fn make(&mut self, image: &mut [u8], cards: u64, room: u64) -> u8 {
        self.converted = false;
        Proved.make(image, cards, room)
    }

    fn answer(&mut self, image: &mut [u8], command: &[u8], reply: &mut [u8]) -> Answer {
        let mut told = Proved.answer(image, command, reply);
        if self.is(OldTaken) && image[4] == 2 {
            told.number = 1;
        }
        told
    }

    fn make_v2(&mut self, image: &mut [u8], cards: u64, room: u64) -> u8 {
        self.converted = false;
        Proved.make_v2(image, cards, room)
    }

    fn answer_v2(&mut self, image: &mut [u8], command: &[u8], reply: &mut [u8]) -> Answer {
        let mut told = Proved.answer_v2(image, command, reply);
        match (self.mutant, told.number) {
            (NewTaken, 9) if image[4] == 1 && command.len() >= 68 => image[16 + 4] ^= 1,
            (_, 1) => return self.malformed(image, command, reply, told),
            (_, 0) => self.accepted(image, command, reply, &mut told),
            (BehindRead, 6) if command[0] == 2 => told.number = 0,
            (ConvertedFresh, 3) if self.converted => told.number = 4,
            _ => {}
        }
        told
    }

    fn convert(&mut self, image: &[u8], target: &mut [u8]) -> u8 {
        let number = Proved.convert(image, target);
        match (self.mutant, number) {
            (ConvertsMark, 0) => target[32..40].fill(0),
            (ConvertsInto1, 0) => target[52..60].rotate_right(2),
            (ConvertsThenRefuses, 14) if !target.is_empty() => target[0] = 0x52,
            (ConvertsTooLarge, 14) if target.len() > 65_536 => return 0,
            _ => {}
        }
        if number == 0 {
            (self.converted, self.untouched) = (true, true);
        }
        number
    }

    fn run(
        &mut self,
        format: Format,
        image: &mut [u8],
        stream: &[u8],
        reply: &mut [u8],
        lines: &mut [u64],
    ) -> (u64, u64) {
        let before = image.to_vec();
        if self.is(ReplyCleared) {
            reply.fill(0);
        }
        let (judged, end) = Proved.run(format, image, stream, reply, lines);
        if lines.chunks_exact(8).any(|line| line[0] == 0) {
            (self.converted, self.untouched) = (false, false);
        }
        let room = lines.len() as u64 / 8;
        let rest = 8 * judged as usize;
        let other = u64::from(image[4]) != if format == Format::V1 { 1 } else { 2 };
        match self.mutant {
            LineBefore if lines[..rest].first() == Some(&0) => lines[1] = 0,
            LinesCleared => lines[rest..].fill(0),
            OldVersionRun if other && judged > 0 => lines[0] = 1,
            CutIsEnd if judged < room => return (judged, stream.len() as u64),
            OneLess if judged > 1 => return (judged - 1, end),
            ImageKept if judged == room => image.copy_from_slice(&before),
            _ => {}
        }
        (judged, end)
    }

    fn end(&mut self, format: Format, stream: &[u8]) -> u64 {
        match self.mutant {
            WalkBeyond => stream.len() as u64,
            _ => Proved.end(format, stream),
        }
    }

    fn history(
        &mut self,
        kept: &mut [u8; 43_168],
        used: &mut u64,
        shape: (u16, u16),
        command: &[u8],
        reply: &mut [u8],
    ) -> Answer {
        if self.is(BeyondIsNothing) && *used > kept.len() as u64 {
            *used = 0;
        }
        let (before, start) = (kept.to_vec(), *used as usize);
        self.kept = if start == 0 { 0 } else { self.kept };
        let mut told = Proved.history(kept, used, shape, command, reply);
        let end = *used as usize;
        self.kept += usize::from(told.number == 0);
        let undone = told.number == 0 && self.early(end);
        // The bytes that nobody kept end otherwise than those beside the store.
        let beside = before.last() == Some(&0x77);
        match (self.mutant, told.number) {
            (HistoryCounts | HistoryText | FullReplies | RefusalKept | UsedShort, _) if !beside => {
            }
            (HistoryCounts, 0) if command[0] == 4 => told.fields[4] += 1,
            (HistoryText, 0) if command[0] <= 2 && told.fields[6] > 0 => reply[0] ^= 1,
            (OverFull, 22) if commands(&before, start) > 200 => told.number = 0,
            (FullReplies, 22) => told.fields[0] += 1 << 32,
            (RefusalKept, 3) => kept[start..start + command.len()].copy_from_slice(command),
            (UsedShort, 0) if command.len() > 52 => *used = start as u64 + 52,
            _ if undone => {
                kept.copy_from_slice(&before);
                *used = start as u64;
                told.number = 22;
            }
            _ => {}
        }
        told
    }

    fn agree(&mut self, first: &[u8], second: &[u8]) -> (u8, u64) {
        self.compared += 1;
        let told = Proved.agree(first, second);
        let colder = |text: &[u8]| {
            let mut text = text.to_vec();
            for at in simulate::checks::texts::drops(&text) {
                text[at + 1] = b'F';
            }
            text
        };
        match (self.mutant, told.0) {
            (NumbersOnly, _) => Proved.agree(&colder(first), &colder(second)),
            (HalfRefused, 0) if apart(first, second) => (20, 2),
            (PlaceInSecond, 20) => Proved.agree(second, first),
            (WordsCompared, 0) if first.len() != second.len() => (20, 2),
            (PlaceFromOne, 20) => (20, told.1 + 1),
            (SecondFirst, 18) if Proved.agree(second, second).0 == 18 => (19, 0),
            (OneWay, 20) if self.compared.is_multiple_of(2) => (0, 0),
            _ => told,
        }
    }
}

/// How many whole commands the used bytes have.
fn commands(bytes: &[u8], used: usize) -> usize {
    let used = &bytes[..used.min(bytes.len())];
    let next = |at: &usize| simulate::checks::runs::whole(Format::V1, used, *at);
    std::iter::successors(Some(0), next).count() - 1
}

/// Whether the first drops of two texts, in Fahrenheit, are half a degree apart.
fn apart(first: &[u8], second: &[u8]) -> bool {
    let of = |text: &[u8]| {
        let at = simulate::checks::texts::drops(text).first().copied()?;
        let tenths = i64::from(two(text, at + 2) as u16);
        (text[at + 1] == b'F').then_some(tenths)
    };
    let apart = of(first)
        .zip(of(second))
        .map(|(one, other)| (one - other).abs());
    apart == Some(5)
}

#[test]
fn each_wrong_answer_stops_the_simulation() {
    stopped(ALL, Wrong::new);
}

/// Towns whose desks translate one edition and name another.
#[test]
fn a_careless_translation_is_seen() {
    let mut library = Proved;
    for seed in 0..2_000 {
        let shape = Shape {
            careless: true,
            ..Shape::any(&mut Random::new(seed))
        };
        let mut tally = Tally::default();
        let mut town = Town::new(&mut library, &mut tally, seed, shape, None).unwrap();
        if let Err(breach) = town.run() {
            assert_eq!(breach.check, Check::SameDrops, "{}", breach.told);
            return;
        }
    }
    panic!("nothing was seen in 2,000 towns");
}

#[test]
fn the_page_has_these_rows() {
    on_the_page(ALL);
}
