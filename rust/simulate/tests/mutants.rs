//! Wrong answers, put between the town and the library one at a time: each stops
//! the simulation, and the check that stops it is the one that is named here.
//! `docs/RELIABILITY.md` has this table.

mod wrong;

use second::Pair;
use simulate::checks::Check;
use simulate::library::{Answer, Held, Lease, Library, Next, Proved, Queue, QueueAnswer};
use simulate::rule::Rule;
use simulate::run::{run, told};
use simulate::tally::Tally;
use wrong::{on_the_page, stopped, PLAN};

/// A wrong answer, by what is wrong.
#[derive(Clone, Copy, Debug, PartialEq, Eq)]
enum Mutant {
    StalenessIgnored,
    SharedAlwaysFresh,
    PairReplaced,
    PairNotRaisedByReads,
    UpdatePairIgnored,
    UpdateBelowTaken,
    FutureIgnored,
    MarkIgnored,
    MarkNotKept,
    EditionNotCounted,
    BehindServed,
    OldTextShown,
    RaisedThenShort,
    RefusedWritesAByte,
    RefusedWritesReply,
    ReplyClearedBehindText,
    BodyNotCleared,
    FieldsBefore,
    DenialIgnored,
    GrantedTwice,
    UpgradeKeepsPlace,
    FreedPlaceKept,
    LeaseEarly,
    DriftForgotten,
    LearnsHalf,
    ProposalNotAbove,
    ProposalNotLearnt,
    CountFirst,
    LineBeforeBody,
    CutLooksWhole,
    OrderUnlooked,
    UncommittedApplied,
    SyncedIgnored,
    RecoveryHidesRefusal,
    RecoveryWrongLine,
    RecoveryForgetsMark,
    BehindShown,
    UnmarkedWritten,
    UnpreparedReady,
    RefusedPrepares,
    ReachShort,
    AgainWithDue,
    AgainKeepsCount,
}

use Mutant::*;

/// Each mutant in words, and the check that stops it.
const ALL: &[(Mutant, &str, Check)] = &[
    (StalenessIgnored, "staleness is not looked at", Check::Late),
    (
        SharedAlwaysFresh,
        "a shared command is never stale",
        Check::Late,
    ),
    (
        PairReplaced,
        "the stored s is the command's, not the larger of both",
        Check::Fields,
    ),
    (
        PairNotRaisedByReads,
        "a read does not raise the stored pair",
        Check::Fields,
    ),
    (
        UpdatePairIgnored,
        "the stored pair is raised by the verifier, not by the update pair",
        Check::Fields,
    ),
    (
        UpdateBelowTaken,
        "an update pair below its verifier is taken",
        Check::Number,
    ),
    (
        FutureIgnored,
        "a stamp from the far future is accepted",
        Check::Future,
    ),
    (
        MarkIgnored,
        "the commit mark is not looked at",
        Check::Number,
    ),
    (MarkNotKept, "the next mark is not stored", Check::Fields),
    (
        EditionNotCounted,
        "the edition is not counted",
        Check::Fields,
    ),
    (
        BehindServed,
        "a translation that is behind is read",
        Check::Behind,
    ),
    (OldTextShown, "a read shows another text", Check::Shows),
    (
        RaisedThenShort,
        "the pair is raised, and then the reply buffer is too short",
        Check::RefusedStore,
    ),
    (
        RefusedWritesAByte,
        "a refusal writes a byte of the image",
        Check::RefusedStore,
    ),
    (
        RefusedWritesReply,
        "a refusal writes a byte of the reply buffer",
        Check::RefusedStore,
    ),
    (
        ReplyClearedBehindText,
        "the reply buffer is cleared behind the text",
        Check::Reply,
    ),
    (
        BodyNotCleared,
        "a byte behind a text is not zero",
        Check::Image,
    ),
    (
        FieldsBefore,
        "the reply fields are those before the command",
        Check::Fields,
    ),
    (
        DenialIgnored,
        "a denied ask is accepted",
        Check::QueueNumber,
    ),
    (GrantedTwice, "the lock is granted twice", Check::QueueHolds),
    (
        UpgradeKeepsPlace,
        "an upgrade goes to the front",
        Check::QueuePlaces,
    ),
    (
        FreedPlaceKept,
        "a freed place is not cleared",
        Check::QueuePlaces,
    ),
    (
        LeaseEarly,
        "a lease ends a second early",
        Check::QueueNumber,
    ),
    (
        DriftForgotten,
        "a lease is not lengthened by the drift",
        Check::QueueNumber,
    ),
    (
        LearnsHalf,
        "a desk learns the x without the s",
        Check::Learnt,
    ),
    (
        ProposalNotAbove,
        "a shared proposal is not above what is known",
        Check::Proposed,
    ),
    (
        ProposalNotLearnt,
        "a proposal is not learnt",
        Check::Proposed,
    ),
    (
        CountFirst,
        "an append stores the count first",
        Check::ReadBack,
    ),
    (
        LineBeforeBody,
        "an append stores the line before the body",
        Check::LogBytes,
    ),
    (CutLooksWhole, "a cut append is whole", Check::ReadBack),
    (
        OrderUnlooked,
        "the order of transactions is not looked at",
        Check::AppendNumber,
    ),
    (
        UncommittedApplied,
        "recovery writes updates that are not committed",
        Check::Recovered,
    ),
    (
        SyncedIgnored,
        "recovery writes updates that are synced",
        Check::Image,
    ),
    (
        RecoveryHidesRefusal,
        "recovery hides a refusal",
        Check::RecoveryNumber,
    ),
    (
        RecoveryWrongLine,
        "recovery names the line before",
        Check::RecoveryNumber,
    ),
    (
        RecoveryForgetsMark,
        "recovery clears the commit mark",
        Check::Image,
    ),
    (
        BehindShown,
        "a desk shows a translation that is behind",
        Check::ShownPart,
    ),
    (
        UnmarkedWritten,
        "what is due on a card without the mark is written",
        Check::NextStep,
    ),
    (
        UnpreparedReady,
        "a card is ready that no accepted prepare marked",
        Check::NextStep,
    ),
    (
        RefusedPrepares,
        "a refused prepare counts as accepted",
        Check::Heard,
    ),
    (
        ReachShort,
        "a line that is written counts as not reached",
        Check::Heard,
    ),
    (
        AgainWithDue,
        "a log begins again while something is due",
        Check::BeginAgain,
    ),
    (
        AgainKeepsCount,
        "a log that begins again keeps its count",
        Check::BeginAgain,
    ),
];

/// The proved library with one wrong answer.
struct Wrong(Mutant);

/// Where the entry of a command's card stands, if the image has it.
fn entry_at(image: &[u8], command: &[u8]) -> Option<usize> {
    let card = usize::from(*command.get(2)?) + 256 * usize::from(*command.get(3)?);
    let cards = usize::from(image[6]) + 256 * usize::from(image[7]);
    (card < cards).then_some(16 + 32 * card)
}

fn number_at(bytes: &[u8], at: usize) -> u64 {
    u64::from_le_bytes(bytes[at..at + 8].try_into().unwrap())
}

fn put(bytes: &mut [u8], at: usize, number: u64) {
    bytes[at..at + 8].copy_from_slice(&number.to_le_bytes());
}

/// A command whose stamps, in both pairs, are at least those stored.
fn freshened(image: &[u8], command: &[u8]) -> Vec<u8> {
    let mut fresh = command.to_vec();
    let Some(entry) = entry_at(image, command) else {
        return fresh;
    };
    let same = command[20..36] == [0; 16];
    for at in [0, 8] {
        let stored = number_at(image, entry + at);
        let verifier = number_at(command, 4 + at).max(stored);
        put(&mut fresh, 4 + at, verifier);
        if !same {
            put(&mut fresh, 20 + at, number_at(command, 20 + at).max(stored));
        }
    }
    fresh
}

impl Wrong {
    fn is(&self, mutant: Mutant) -> bool {
        self.0 == mutant
    }

    /// What is wrong with a refusal.
    fn refused(&self, image: &mut [u8], command: &[u8], reply: &mut [u8], told: Answer) -> Answer {
        let Some(entry) = entry_at(image, command) else {
            return told;
        };
        let exclusive = command[1] == 2;
        match (self.0, told.number) {
            (StalenessIgnored, 3) => Proved.answer(image, &freshened(image, command), reply),
            (SharedAlwaysFresh, 3) if !exclusive => {
                Proved.answer(image, &freshened(image, command), reply)
            }
            (MarkIgnored, 4) => {
                let mut right = command.to_vec();
                right[36..38].copy_from_slice(&image[entry + 16..entry + 18]);
                right[38..42].copy_from_slice(&image[entry + 20..entry + 24]);
                Proved.answer(image, &right, reply)
            }
            (FutureIgnored, 17) => {
                let mut told = told;
                told.number = 0;
                told
            }
            (BehindServed, 6) if command[0] == 2 => {
                let mut told = told;
                told.number = 0;
                told
            }
            (RaisedThenShort, 8) => {
                let old = number_at(image, entry);
                put(image, entry, old.max(number_at(command, 4)) + (1 << 32));
                told
            }
            (RefusedWritesAByte, 3) => {
                image[entry + 24] ^= 1;
                told
            }
            (RefusedWritesReply, 4 | 6) if !reply.is_empty() => {
                reply[0] ^= 1;
                told
            }
            _ => told,
        }
    }

    /// A malformed command, with its update pair lifted to the verifier.
    fn lifted(&self, image: &mut [u8], command: &[u8], reply: &mut [u8], told: Answer) -> Answer {
        let mut lifted = command.to_vec();
        if command.len() < 52 || command[20..36] == [0; 16] {
            return told;
        }
        for at in [0, 8] {
            let (verifier, update) = (number_at(command, 4 + at), number_at(command, 20 + at));
            put(&mut lifted, 20 + at, verifier.max(update));
        }
        Proved.answer(image, &lifted, reply)
    }

    /// What is wrong with the entry that an accepted command leaves.
    fn accepted(&self, old: &[u8], entry: &mut [u8], command: &[u8], told: &mut Answer) {
        let own = if command[20..36] == [0; 16] { 4 } else { 20 };
        match self.0 {
            PairReplaced => put(entry, 0, number_at(command, own)),
            PairNotRaisedByReads if command[0] <= 2 => entry[..16].copy_from_slice(&old[..16]),
            UpdatePairIgnored => {
                for at in [0, 8] {
                    put(
                        entry,
                        at,
                        number_at(command, 4 + at).max(number_at(old, at)),
                    );
                }
            }
            MarkNotKept => entry[16..24].copy_from_slice(&old[16..24]),
            EditionNotCounted if command[0] == 3 && old[24..26] != [0, 0] => {
                entry[24..26].copy_from_slice(&old[24..26]);
            }
            _ => {}
        }
        let two = |at: usize| u64::from(entry[at]) + 256 * u64::from(entry[at + 1]);
        told.fields[..2].copy_from_slice(&[number_at(entry, 0), number_at(entry, 8)]);
        told.fields[2..5].copy_from_slice(&[two(16), two(20) + 65_536 * two(22), two(24)]);
        if self.is(FieldsBefore) {
            told.fields[..2].copy_from_slice(&[number_at(old, 0), number_at(old, 8)]);
        }
    }

    /// What is wrong with the bytes that an accepted command leaves.
    fn written(&self, image: &mut [u8], command: &[u8], reply: &mut [u8], told: &Answer) {
        let length = told.fields[6] as usize;
        match self.0 {
            OldTextShown if command[0] <= 2 && length > 0 => reply[0] ^= 1,
            ReplyClearedBehindText if command[0] <= 2 => reply[length..].fill(0),
            BodyNotCleared if command[0] == 3 => {
                let end = image.len();
                image[end - 1] ^= 1;
            }
            _ => {}
        }
    }
}

impl Library for Wrong {
    fn answer(&mut self, image: &mut [u8], command: &[u8], reply: &mut [u8]) -> Answer {
        let before = image.to_vec();
        let mut told = Proved.answer(image, command, reply);
        match told.number {
            0 => {
                let at = entry_at(image, command).unwrap();
                let (old, entry) = (&before[at..at + 32], &mut image[at..at + 32]);
                self.accepted(old, entry, command, &mut told);
                self.written(image, command, reply, &told);
                told
            }
            1 if self.is(UpdateBelowTaken) => self.lifted(image, command, reply, told),
            1 | 2 | 9 => told,
            _ => self.refused(image, command, reply, told),
        }
    }

    fn ask(&mut self, queue: &mut Queue, mode: u8, pair: Pair) -> QueueAnswer {
        let before = *queue;
        let mut told = Proved.ask(queue, mode, pair);
        if self.is(DenialIgnored) && told.number == 11 {
            let [_, s, x] = queue.kept;
            return Proved.ask(queue, mode, Pair::new(pair.s.max(s), pair.x.max(x)));
        }
        if self.is(GrantedTwice) && told.number == 0 {
            told.fields[0] = 1;
        }
        if self.is(UpgradeKeepsPlace) && told.number == 0 && queue.kept[0] == before.kept[0] {
            let last = queue.kept[0] as usize - 1;
            queue.modes[..=last].rotate_right(1);
            queue.s[..=last].rotate_right(1);
            queue.x[..=last].rotate_right(1);
        }
        told
    }

    fn leave(&mut self, queue: &mut Queue, desk: u32) -> QueueAnswer {
        let told = Proved.leave(queue, desk);
        if self.is(FreedPlaceKept) && told.number == 0 {
            queue.modes[queue.kept[0] as usize] = 1;
        }
        told
    }

    fn lapse(&mut self, queue: &mut Queue, desk: u32, mut lease: Lease) -> QueueAnswer {
        if self.is(DriftForgotten) && lease.drift >= 0.0 {
            lease.drift = 0.0;
        }
        if self.is(LeaseEarly) && lease.period > 1.0 && lease.period < 86_400.0 {
            lease.period -= 1.0;
        }
        Proved.lapse(queue, desk, lease)
    }

    fn learn(&mut self, known: &mut [u64; 2], pair: Pair) {
        let pair = if self.is(LearnsHalf) {
            Pair::new(0, pair.x)
        } else {
            pair
        };
        Proved.learn(known, pair);
    }

    fn propose(
        &mut self,
        who: (u16, u16),
        known: &mut [u64; 2],
        mode: u8,
        pair: &mut [u64; 2],
    ) -> u8 {
        let before = *known;
        let number = Proved.propose(who, known, mode, pair);
        if self.is(ProposalNotAbove) && number == 0 && mode == 1 && before[0] >> 32 > 0 {
            pair[0] -= 1 << 32;
            known[0] = pair[0];
        }
        if self.is(ProposalNotLearnt) {
            *known = before;
        }
        number
    }

    fn shown(&mut self, held: &Held, asked: u8) -> (u8, u64) {
        match Proved.shown(held, asked) {
            (6, _) if self.is(BehindShown) && held.lengths[1] > 0 => (0, held.lengths[1]),
            told => told,
        }
    }

    fn append(&mut self, log: &mut [u8], kind: u8, body: &[u8], stores: u64) -> u8 {
        let before = log.to_vec();
        let number = Proved.append(log, kind, body, stores);
        match (self.0, number) {
            (CountFirst, 26) if stores > 0 => log[0] = before[0] + 1,
            (LineBeforeBody, 26) => {
                let mut whole = before.clone();
                Proved.append(&mut whole, kind, body, 1 << 20);
                let line = 1 + 11 * usize::from(before[0]);
                log.copy_from_slice(&before);
                let first = (stores as usize).min(11);
                log[line..line + first].copy_from_slice(&whole[line..line + first]);
            }
            (CutLooksWhole, 26) => return Proved.append(log, kind, body, 1 << 20),
            (OrderUnlooked, 23) if before[0] <= 200 => return 0,
            _ => {}
        }
        number
    }

    fn recover(&mut self, log: &[u8], image: &mut [u8], s: &[u64], x: &[u64]) -> (u8, u64) {
        let before = image.to_vec();
        let wrong = match self.0 {
            UncommittedApplied => committed(log),
            SyncedIgnored => unsynced(log),
            _ => log.to_vec(),
        };
        let told = Proved.recover(&wrong, image, s, x);
        let mut right = before.clone();
        Proved.recover(log, &mut right, s, x);
        let other_text = self.is(SyncedIgnored) && bodies(image) != bodies(&right);
        if wrong != log && (told.0 != 0 || other_text) {
            image.copy_from_slice(&before);
            return Proved.recover(log, image, s, x);
        }
        let (number, line) = told;
        match self.0 {
            RecoveryHidesRefusal if number == 3 => (0, 0),
            RecoveryWrongLine if line > 0 => (number, line - 1),
            RecoveryForgetsMark if number == 0 && before != image => {
                image[16 + 16..16 + 24].fill(0);
                told
            }
            _ => told,
        }
    }

    fn next_step(&mut self, log: &[u8], place: (u16, u16), going: bool, seen: &[u16; 4]) -> Next {
        let told = Proved.next_step(log, place, going, seen);
        self.wrong_step(log, going, seen, told)
    }

    fn heard(&mut self, step: (u8, u8), number: u8, mark: u16) -> [u16; 4] {
        let told = Proved.heard(step, number, mark);
        let [known, held, mark, reach] = told;
        match self.0 {
            RefusedPrepares if step.0 == 2 && number == 3 => [known, 1, mark, reach],
            ReachShort if reach > 0 => [known, held, mark, reach - 1],
            _ => told,
        }
    }

    fn begin_again(&mut self, log: &mut [u8]) -> bool {
        let (count, begun) = (log[0], Proved.begin_again(log));
        match self.0 {
            AgainWithDue if Proved.check_log(log) == 0 => log[0] = 0,
            AgainKeepsCount => log[0] = count,
            _ => return begun,
        }
        true
    }
}

/// What a step or its answer is made of by a wrong library.
impl Wrong {
    fn wrong_step(&self, log: &[u8], going: bool, seen: &[u16; 4], told: Next) -> Next {
        let due = simulate::checks::steps::all_due(log);
        match (self.0, told.0) {
            (UnmarkedWritten, 6) => (4, due.last().map_or(0, |due| due.line), 0),
            (UnpreparedReady, 5) if going && due.is_empty() && seen[1] == 0 => (3, 0, 0),
            _ => told,
        }
    }
}

/// The bytes behind the entries of an image.
fn bodies(image: &[u8]) -> &[u8] {
    &image[16 + 32 * usize::from(image[6])..]
}

/// A log whose last transaction is committed, begun or not.
fn committed(log: &[u8]) -> Vec<u8> {
    let mut wrong = log.to_vec();
    let read = simulate::checks::log::read(log);
    let begun = read.and_then(|read| {
        let begun = read.records.iter().rev().find(|record| record.0 == 1);
        begun.map(|record| record.1.to_vec())
    });
    if let Some(transaction) = begun {
        Proved.append(&mut wrong, 3, &transaction, 1 << 20);
    }
    wrong
}

/// A log whose synced records name transaction 0, and so stand for nothing.
fn unsynced(log: &[u8]) -> Vec<u8> {
    let mut wrong = log.to_vec();
    let good = Proved.check_log(log) == 0;
    for line in 0..if good { usize::from(log[0]) } else { 0 } {
        let at = 1 + 11 * line;
        if log[at] == 4 {
            let four = |at: usize| u32::from_le_bytes(log[at..at + 4].try_into().unwrap());
            let body = four(at + 1) as usize;
            let gone: u32 = log[body + 2..body + 6]
                .iter()
                .map(|byte| u32::from(*byte))
                .sum();
            wrong[body + 2..body + 6].fill(0);
            wrong[at + 7..at + 11].copy_from_slice(&(four(at + 7) - gone).to_le_bytes());
        }
    }
    wrong
}

#[test]
fn the_library_as_it_is_goes_through() {
    let mut tally = Tally::default();
    let stop = run(&mut Proved, &mut tally, PLAN).err();
    assert!(stop.is_none(), "{stop:?}");
}

#[test]
fn each_wrong_answer_stops_the_simulation() {
    stopped(ALL, Wrong);
}

/// Rules of transactions that a town breaks, and the check of the store beside
/// that notices it.
const BROKEN: &[(Rule, &[Check])] = &[
    (Rule::MarkTakenOff, &[Check::Meant, Check::MeantCurrent]),
    (Rule::WrittenEarly, &[Check::Meant, Check::MeantCurrent]),
    (Rule::LineSkipped, &[Check::Meant, Check::MeantCurrent]),
    (
        Rule::ReleasedUnwritten,
        &[Check::Meant, Check::MeantCurrent],
    ),
    (Rule::CommitsUnheld, &[Check::Meant, Check::MeantCurrent]),
    (Rule::NotedMarked, &[Check::Meant, Check::MeantCurrent]),
    (Rule::BegunAgainDue, &[Check::Meant, Check::MeantCurrent]),
    (Rule::Unwritable, &[Check::StepsEnd]),
];

#[test]
fn each_broken_rule_is_seen_in_the_store_beside() {
    for (rule, checks) in BROKEN {
        let stop = told(&mut Proved, 9, *rule).unwrap();
        let check = stop.breach.check;
        assert!(checks.contains(&check), "{rule:?}: {check:?}");
    }
}

#[test]
fn the_page_has_this_table() {
    on_the_page(ALL);
}
