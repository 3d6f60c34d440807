//! What came, and how often.

use std::fmt::Write;

/// From so many kills on, what depends on the moment of a kill has to come: how quick the machine is must not decide
/// whether a short run passes.
const SOME: u64 = 1_000;

/// From so many kills on, what is rare has to come as well.
const MANY: u64 = 10_000;

/// What may never come: a kill inside a write to the trace.
const NEVER: u64 = u64::MAX;

/// Names what is counted, from how many kills on it has to come, and its words.
macro_rules! counted {
    ($($kind:ident $from:tt $text:literal)*) => {
        /// What is counted.
        #[derive(Clone, Copy, Debug, PartialEq, Eq)]
        pub enum Counted {
            $(#[doc = $text] $kind),*
        }

        const ALL: &[(Counted, u64, &str)] = &[$((Counted::$kind, $from, $text)),*];
    };
}

counted! {
    Towns 1 "towns: 2 to 6 desks, 1 to 4 cards, one image and a log for each desk in files"
    OfVersion2 MANY "of them with a store of version 2, without transactions"
    Kills 1 "kills"
    Unsaved SOME "a command was under way, and the image not saved"
    Saved SOME "a command was under way, and the image saved but nobody told"
    Idle MANY "a command was under way that changes nothing"
    NotAppended SOME "an append was under way, and its record does not stand"
    Appended MANY "an append was under way, and its record stands but nobody was told"
    CommitFound MANY "the same of a commit: the transaction counts"
    NotBegun MANY "a log was to begin again, and had not"
    Begun MANY "a log had begun again, and nobody was told"
    Recovering SOME "a recovery was under way"
    CutNotes NEVER "a note of the trace was cut"
    Commands 1 "commands, each answered as by the second program, on an image that is the same to its last byte"
    Accepted 1 "of them accepted"
    Stale 1 "refused as stale (3)"
    Marked 1 "refused for a mark (4)"
    Behind SOME "refused as behind (6)"
    Sentences 1 "commands held to demand 3's sentences, each in the whole list of its town"
    Sessions MANY "pairs of commands of one session, isolated"
    Shown 1 "accepted reads, showing the text that is meant"
    Stands 1 "cards without a mark, with the texts that are meant"
    Appends 1 "appends, each answered as by the second program"
    Opened 1 "logs opened, to their last byte what was appended"
    Done 1 "transactions that were told of as done"
    GivenUp SOME "transactions that were given up"
    Again MANY "logs that began again"
    Recovered 1 "recoveries that came to their end"
    Helped MANY "logs of desks that are down, opened by another desk to recover"
    Surveyed 1 "recoveries on copies, right behind a kill, of a log that nobody held"
    Due SOME "of them with something due"
    Logs 1 "logs of desks at work, read back right behind a kill"
}

/// The counts.
#[derive(Clone, Debug)]
pub struct Tally {
    counts: Vec<u64>,
}

impl Default for Tally {
    fn default() -> Tally {
        Tally {
            counts: vec![0; ALL.len()],
        }
    }
}

impl Tally {
    pub fn count(&mut self, what: Counted) {
        self.add(what, 1);
    }

    pub fn add(&mut self, what: Counted, times: u64) {
        self.counts[what as usize] += times;
    }

    pub fn take_in(&mut self, other: &Tally) {
        let both = self.counts.iter_mut().zip(&other.counts);
        both.for_each(|(count, more)| *count += more);
    }

    pub fn of(&self, what: Counted) -> u64 {
        self.counts[what as usize]
    }

    /// A line for each.
    pub fn table(&self) -> String {
        let mut table = String::new();
        for (what, _, text) in ALL {
            let _ = writeln!(table, "{:>12}  {text}", self.of(*what));
        }
        table
    }

    /// What never came, and has to in so many kills.
    pub fn missing(&self) -> Vec<&'static str> {
        let kills = self.of(Counted::Kills);
        let never = ALL
            .iter()
            .filter(|(what, from, _)| *from <= kills && self.of(*what) == 0);
        never.map(|(_, _, text)| *text).collect()
    }
}
