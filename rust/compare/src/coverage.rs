//! The coverage table: what was compared and how often, each kind with its
//! own line. A run in which one of them never came has failed.

use std::fmt::Write;

use second::Format;

/// Names the kinds: how many counts a line has in version 1 and in version 2
/// (none where it is no matter of that version), and its text, which names them
/// in turn where there are few.
macro_rules! kinds {
    ($($kind:ident $first:literal $second:literal $text:literal)*) => {
        /// A line of the table.
        #[derive(Clone, Copy, Debug, PartialEq, Eq)]
        pub enum Kind {
            $(#[doc = $text] $kind),*
        }

        /// Each kind, how many counts it has in each version, and its text.
        const KINDS: &[(Kind, [usize; 2], &str)] =
            &[$((Kind::$kind, [$first, $second], $text)),*];
    };
}

kinds! {
    Trials 19 0 "trials a to n, case P, slips 1 to 3, commands with two pairs"
    Singles 1 1 "single commands on sound images"
    Editions 4 4 ".. on a card of edition 0, 1, 65,534, 65,535"
    TextsRead 3 3 ".. reading a text that is empty, one short of C, C"
    TextsWritten 4 4 ".. writing a text that is empty, one short of C, C, one more"
    Marks 5 5 ".. with the stored mark, its desk one below, above, its transaction one below, above"
    SharedStamps 3 3 ".. with the stored s, one below, one above"
    ExclusiveStamps 3 3 ".. with the stored x, one below, one above"
    AheadShared 3 3 ".. in time, with a T 999,999, 1,000,000, 1,000,001 above the stored s, alone"
    AheadExclusive 3 3 ".. in time, .. above the stored x, alone"
    AheadBoth 3 3 ".. in time, .. above the stored s and x"
    AheadFreshShared 3 3 ".. in time, .. on a card that keeps no s"
    AheadFreshExclusive 3 3 ".. in time, .. on a card that keeps no x"
    AheadUpdates 2 2 ".. with two pairs, too far ahead by the update pair alone, accepted with 1,000,000 above"
    AheadOrder 2 2 ".. too far ahead: stale as well, refused with 17 though the mark is wrong too"
    FarBelow 1 1 ".. accepted, with an s more than 1,000,000 below the stored one"
    Replies 4 4 ".. reading into a buffer of no bytes, one short of the text, as long, one past"
    TopBits 4 4 ".. accepted, with the top bit of a transaction, commit desk, stamp's T, stamp's desk"
    StampBytes 4 4 ".. accepted, with eight different bytes in the verifier's s, x, the update pair's s, x"
    Carrying 1 1 ".. refused with 1, non-writes that carry a payload"
    Updates 3 3 ".. with two pairs: the verifier again, one stamp above it, both above"
    UpdateSteps 2 2 ".. with two pairs: s one above the verifier's, x one above"
    Openings 4 4 ".. accepted with a verifier of no stamps, shared without s, exclusive without x, of two older stamps"
    LateVerifiers 2 2 ".. refused with 3 by the verifier's x, its s, where the update pair would not be"
    NoUpdates 7 7 ".. refused with 1 by the update pair alone: s, x one below the verifier's; s, x none; s, x without a desk; none of the mode's own"
    NoVerifiers 2 2 ".. refused with 1 by the verifier alone: s, x without a desk"
    EveryReply 2 2 "every reply buffer from 0 to one past the text: 8, accepted"
    Largest 9 9 "commands on images at the limits, by shape"
    HeaderBytes 16 16 "images not sound by one header byte"
    EntryFields 9 17 "images not sound by one field of an entry"
    BodyBytes 1 1 "images not sound by a byte past a text"
    ImageLengths 2 2 "images too short, too long"
    StillSound 1 1 "images changed and still sound"
    Beyond 9 9 "images not sound by N and C beyond the limits, by shape"
    Made 2 2 "fresh images made, refused with 14"
    MadeLargest 9 9 ".. made at the limits, by shape"
    MadeBeyond 9 9 ".. refused beyond them at their own length, by shape"
    CommandBytes 52 68 "commands refused with 1 or 2 by one byte before the payload"
    CommandLengths 2 2 "commands too short, too long"
    Lists 4 4 "lists from a fresh image, by strict desks, by loose desks, by anyone, by desks whose clocks jump"
    Listed 1 1 "commands in these lists"
    LargeLists 3 1 "lists from fresh images at the limits: demand 3, beside the history engine, with recoveries"
    ListedOpenings 2 2 ".. accepted that open a session: shared, exclusive"
    Late 2 2 "demand 3: commands that come late, and that do not"
    Ahead 2 2 "demand 3: commands in time from too far ahead, and that are not"
    AheadRead 2 2 "demand 3: .. reads of a translation that is behind, and that is not, left out as too far ahead"
    Behind 2 2 "demand 3: reads of a translation that is behind, and that is not"
    Shown 2 2 "demand 3: accepted reads of a text written, of none"
    Premise 2 2 "demand 3: cards with the premise, not idle, and without it"
    Isolated 1 1 "demand 3: pairs of one session, isolated"
    Between 2 2 "demand 3: .. a barred command between, refused; another desk's shared one"
    LetIn 1 1 "demand 3: let in between a pair without the premise"
    Queues 34 0 "turns on queues of 0 to 33 places"
    BadQueues 8 0 "bad alone by length, count, largest s, largest x, entry, desk twice, s above, x above"
    Chains 33 0 "turns in chains of asks and leaves, 1 to 33 places"
    Holding 1 0 "asks that hold the lock at once"
    Upgrades 4 0 "upgrades: denied, accepted, .. that hold the lock at once, .. with every place taken"
    UpgradeShared 3 0 "upgrades with the largest s, one below, one above"
    UpgradeExclusive 3 0 "upgrades with the largest x, one below, one above"
    Twelves 3 0 "12: asking shared while shared, shared while exclusive, exclusive while exclusive"
    Courses 33 0 "turns of lists from an empty queue, checked by their accepted turns, 1 to 33 places"
    Lapses 5 0 "silent desks: left, 10, 21, 15, 25"
    LeaseLimits 24 0 "period, drift, begin, now: one step below, at, one above each of their limits"
    LeaseSpecials 20 0 "period, drift, begin, now: no number, infinity, the other, -0, subnormal"
    Waits 3 0 "time passed one step short of the wait, as long, one step longer"
    ClockBack 1 0 "silent desks waited for since the clock went back"
    RoundedOver 1 0 "silent desks that left since the time passed was rounded up to the wait"
    Desks 4 0 "desks' texts: original, translation, refused with 6, with 8"
    ThirdLanguage 1 0 "desks asked for a third language"
    Proposals 4 0 "proposals: shared, exclusive, refused with 1, with 16"
    ProposalTimes 3 0 "proposals with the T of the known stamp, with the next, with the last there is"
    Learnt 4 0 "pairs learnt with neither stamp larger, s alone, x alone, both"
    Systems 1 1 "systems of desks by the rules, over real queues and a real store"
    SystemSteps 7 7 ".. steps: starts, proposals, asks, leaves, queues lost, commands, lessons"
    SystemPremise 2 2 ".. cards of which the premise speaks, and holds; of which it is silent"
    SystemIsolated 1 1 ".. pairs of one session, isolated outright"
    SystemOpenings 1 1 ".. commands accepted that open a session"
    BrokenRules 14 14 "systems with one rule broken, and the premise with it, by the rule"
    LostIsolation 1 1 ".. in which a session was not isolated"
    Walks 2 2 "walks of a stream, to its end, to a cut"
    EveryCut 1 1 "streams cut at every byte"
    Runs 3 3 "runs of streams: whole, with room for few lines, with room for none"
    Places 2 2 "places of a stream where a whole command stands, where none does"
    Appends 4 0 "appends to a redo log: taken, refused with 23, with 24, cut with 26"
    Cuts 3 0 ".. cut within its body, within its line, before its count"
    FullLogs 2 0 ".. refused with 24 at 200 records, for want of room"
    Rooms 3 0 ".. of a body that just fits, one byte more, above 65,535"
    LogLengths 3 0 "redo logs too short, of 2,201 to 65,536 bytes, too long"
    LogCount 1 0 "redo logs refused with 23 by the count"
    LogLines 11 0 ".. by one byte of a line"
    LogBodies 1 0 ".. by a byte of a body"
    StillGood 1 0 "redo logs changed and still good"
    AnyLogs 1 0 "any bytes as log, image and pairs"
    Recoveries 9 0 "recoveries answered 0, 1, 2, 3, 5, 7, 9, 17, 23"
    RecoveredTexts 2 0 "texts after a recovery: of a committed update, as before"
    RecoveredTwice 1 0 "recoveries run twice, neither refused"
    RecoveryWrites 2 0 "recovery's writes in demand 3's list: accepted, refused"
    Steps 9 0 "next steps of a transaction: nothing, look, prepare, ready, write, release, note, wait, bad"
    Heard 5 0 "answers to a step that tell: no entry, an accepted prepare, an accepted write, one of line 255, a mark alone"
    BegunAgain 3 0 "logs that begin again, that do not since something is due, that are bad"
    Outputs 4 0 "the program: too long, bad store, runs to the end, to a cut"
    TextsIll 3 0 "texts: the first ill formed alone, both, the second alone"
    TextsDamaged 4 0 "texts by one byte: changed and ill formed, changed and still well formed, taken, added"
    TextsRandom 1 0 "texts of random bytes"
    TextsCut 1 0 "texts cut at every byte, and with one more"
    TextsFull 1 0 "texts of 255 steps, and of 254"
    TextsDepth 8 0 "texts that agree, by how deep their first steps nest: 1 to 8"
    TextsDeep 1 0 "texts refused for the ninth section alone"
    TextsKinds 6 0 "texts that part at words for a drop, a section; a drop for words, a section; a section for words, a drop"
    TextsFar 2 0 "texts that part at a drop in the outer section, in an inner one"
    TextsMore 4 0 "texts that part where the first has a step more, outer, inner; the second has, outer, inner"
    TextsPast 2 0 ".. the second: just past the text, just past a section inside it"
    TextsTies 2 0 "drops exactly half a degree apart: near, refused by rounding"
    InputLengths 2 0 "the program: inputs of 65,536 bytes, of 65,537"
    ExitStatus 1 0 "the program: ended with status 0"
    ClosedPipes 2 0 "the program: output to a closed pipe, ended with status 0; and where the signal of one is ignored"
    WholeOutputs 4 0 "whole outputs in process: too long, bad store, runs to the end, to a cut"
    OutputLines 5 0 ".. of no command, 1 to 9, 10 to 99, 100 to 999, 1,000 and more"
    MostLines 1 0 ".. of 1,258 commands, the most that an input takes"
    OutputDigits 20 0 ".. numbers of 1 to 20 digits"
    LeftDigits 5 0 ".. bytes left over, of 1 to 5 digits"
    FullStreams 3 0 ".. of more than 600 commands up to byte 65,536, to the end, to a cut; up to byte 65,537"
    OutputRooms 5 0 ".. into no byte, 9, one short of the longest output, as many, one more"
    LargeFronts 4 0 "the program: runs behind images that leave 1,040, 112, 48, 16 bytes for the stream"
    HistoryLists 1 0 "history: lists beside the store, from a fresh image"
    HistoryFull 3 0 "history: refused with 22 by the count, by the payload bytes, by both"
    HistoryEdges 4 0 "history: the 200th kept, the 201st refused, 32,768 payload bytes kept, one more refused"
    HistoryOpenings 1 0 "history: kept with an update pair above the verifier"
    HistoryOrder 1 0 "history: full, and refused by an earlier row"
    HistoryFirst 1 0 "history: the first 22, where the store accepts"
    HistoryAfter 2 0 "history: after the first 22, refused, accepted"
    HistoryBytes 3 0 "history: in any bytes, as many used, more used, with bytes left over"
    Swapped 3 3 "neighbours for different cards swapped: both accepted, one refused, one malformed"
    Regrouped 1 1 "lists sent again card after card"
    OtherCommands 1 1 "commands of the other version, refused with 1"
    OtherImages 2 2 "commands on an image of the other version, answered 9: as it is, with this version's number in its header"
    OtherFronts 2 0 "bad store for an image of version 2: the program, whole outputs in process"
    TrialsAgain 0 4 "the trials in version 2, by language"
    TrialsOfLanguages 0 7 "trials of languages: each by itself, one behind, all behind, no language, bytes 21 to 35, 52 bytes, the update pair"
    LanguagesRead 0 8 "single commands that read a translation: language 0, accepted, behind; 1, accepted, behind; 2; 3"
    LanguagesWritten 0 4 ".. that write one, accepted, by language"
    NoLanguages 0 5 ".. refused with 1 by the language alone: acts 1 to 5"
    Reserved 0 15 ".. refused with 1 by one of the bytes 21 to 35 alone"
    BehindBy 0 4 "demand 3: reads of a translation, by language"
    BehindBeside 0 2 "demand 3: .. of one that is behind beside one that is not, of one that is not beside one that is"
    Converted 0 3 "conversions: made, refused with 9, with 14"
    ConvertedOff 0 2 ".. refused with 14 by a target one byte too short, too long"
    ConvertedUnsound 0 3 ".. refused with 9 by one bit of the header, of the first entry, behind it"
    ConvertedLargest 0 9 ".. made at the limits of version 2, by shape"
    ConvertedBeyond 0 5 ".. refused with 14 beyond them, by shape"
    ConvertedLists 0 1 "lists of version 1, a conversion, lists of version 2: demand 3 over the whole"
}

/// The largest number that any operation answers with.
const MOST: usize = 26;

/// The numbers that some operation of version 1, or of none, gives today.
pub const GIVEN: &[usize] = &[
    0, 1, 2, 3, 4, 5, 6, 7, 8, 9, 10, 11, 12, 13, 14, 15, 16, 17, 18, 19, 20, 21, 22, 23, 24, 25,
    26,
];

/// The numbers that some operation of version 2 gives.
pub const GIVEN_BY_VERSION_2: &[usize] = &[0, 1, 2, 3, 4, 5, 6, 7, 8, 9, 14, 17];

/// The versions, with the numbers of each.
const VERSIONS: [(Format, &[usize]); 2] = [(Format::V1, GIVEN), (Format::V2, GIVEN_BY_VERSION_2)];

/// What was run in one version.
struct Counts {
    numbers: [u64; MOST + 1],
    kinds: Vec<Vec<u64>>,
}

impl Counts {
    /// Every number and every count.
    fn all(&self) -> impl Iterator<Item = &u64> {
        self.kinds.iter().flatten().chain(&self.numbers)
    }
}

/// What was run.
pub struct Run {
    /// Calls of the proved library that were compared.
    pub cases: u64,
    /// The version that is run now, and in which kinds are counted.
    pub format: Format,
    counts: [Counts; 2],
}

impl Default for Run {
    fn default() -> Run {
        let counts = |version: usize| Counts {
            numbers: [0; MOST + 1],
            kinds: KINDS
                .iter()
                .map(|(_, sizes, _)| vec![0; sizes[version]])
                .collect(),
        };
        Run {
            cases: 0,
            format: Format::V1,
            counts: [counts(0), counts(1)],
        }
    }
}

impl Run {
    /// Counts a call of the proved library that was compared.
    pub fn case(&mut self) {
        self.cases += 1;
    }

    /// Counts a call that was compared, and its answer's number.
    pub fn number(&mut self, number: u8) {
        self.case();
        self.counts[self.format as usize].numbers[usize::from(number)] += 1;
    }

    /// Counts one more of a kind.
    pub fn seen(&mut self, kind: Kind) {
        self.seen_at(kind, 0);
    }

    /// Counts one more of a kind that has several counts. What is no matter of
    /// version 2 is counted once for both.
    pub fn seen_at(&mut self, kind: Kind, at: usize) {
        let version = match KINDS[kind as usize].1 {
            [_, 0] => Format::V1,
            _ => self.format,
        };
        self.counts[version as usize].kinds[kind as usize][at] += 1;
    }

    /// Adds what another run counted.
    pub fn add(&mut self, other: &Run) {
        self.cases += other.cases;
        for (ours, theirs) in self.counts.iter_mut().zip(&other.counts) {
            let ours = ours.kinds.iter_mut().flatten().chain(&mut ours.numbers);
            ours.zip(theirs.all())
                .for_each(|(times, more)| *times += more);
        }
    }

    /// The table: of a kind with many counts the sum and the least; version 2
    /// after version 1.
    pub fn table(&self) -> String {
        let mut table = String::new();
        for ((format, given), counts) in VERSIONS.iter().zip(&self.counts) {
            if *format == Format::V2 {
                let _ = writeln!(table, "version 2:");
            }
            let lines = KINDS.iter().zip(&counts.kinds);
            for ((_, _, text), counts) in lines.filter(|(_, counts)| !counts.is_empty()) {
                let sum: u64 = counts.iter().sum();
                let _ = writeln!(table, "{sum:>12}  {text}{}", each(counts));
            }
            for number in *given {
                let times = counts.numbers[*number];
                let _ = writeln!(table, "{times:>12}  answered {number}");
            }
        }
        table
    }

    /// What never came: a number that is given, or a count of a kind.
    pub fn missing(&self) -> Vec<String> {
        let versions = VERSIONS.iter().zip(&self.counts);
        versions
            .flat_map(|((format, given), counts)| {
                let named = |what: String| format!("version {}: {what}", format.version());
                let numbers = given.iter().filter(|number| counts.numbers[**number] == 0);
                let numbers = numbers.map(|number| format!("number {number}"));
                let kinds = KINDS
                    .iter()
                    .zip(&counts.kinds)
                    .flat_map(|((_, _, text), counts)| {
                        let none = counts.iter().enumerate().filter(|(_, times)| **times == 0);
                        none.map(move |(at, _)| format!("\"{text}\", count {at}"))
                    });
                numbers.chain(kinds).map(named).collect::<Vec<_>>()
            })
            .collect()
    }
}

/// The counts of a kind that has several.
fn each(counts: &[u64]) -> String {
    let least = counts.iter().min().copied().unwrap_or_default();
    let each: Vec<String> = counts.iter().map(u64::to_string).collect();
    match counts.len() {
        1 => String::new(),
        2..=9 | 13 | 14 => format!(": {}", each.join(", ")),
        size => format!(": each of {size}, {least} times or more"),
    }
}
