//! What a run counts: steps, faults, numbers of each operation, checks. What
//! never came fails the run.

use second::Format;

use crate::checks::{Check, Made};

crate::named! {
    /// A step of the scheduler.
    Step {
        Deliver "a message arrives",
        Lose "a message is lost",
        Repeat "a message is sent again by the network",
        Propose "a desk proposes",
        Send "a desk sends a command",
        Log "a desk works on its log",
        Show "a desk shows a text",
        Compare "a desk compares two texts",
        Run "commands arrive as one stream",
        Convert "the store is converted",
        Return "a desk comes back",
        Recover "a desk recovers",
        Manage "a lock manager looks after its queue",
        Odd "nonsense is sent",
        Transact "a desk works on a log by the steps",
    }
}

crate::named! {
    /// A fault, or what it leads to.
    Fault {
        Late "a message comes more than 50 steps late",
        Lost "a message is lost",
        Repeated "a message comes twice",
        Overtaken "a message overtakes an earlier one of its sender",
        Elsewhere "an answer reaches a desk that did not ask",
        Crash "a desk crashes",
        NewStart "it comes back under a new start number",
        Ghost "a command of an earlier start arrives",
        Silent "a desk falls silent",
        Lapsed "a silent desk is taken out by lease",
        LateByLease "it sends late commands all the same",
        KeptOut "and the guard keeps them out",
        QueueLost "a lock manager loses its queue",
        CutOff "lock managers are cut off from some of the desks",
        CutMessage "a message between a desk and a manager is lost by that",
        AskedNone "a desk asks no lock manager at all",
        TwoHold "two desks come to hold a card against each other, at two managers",
        TwoSend "one of the two sends a command",
        TwoDecided "and the guard keeps it out",
        Denied "an ask is denied",
        Upgrade "a shared desk upgrades",
        UpgradeDenied "an upgrade is denied",
        Opened "a session is opened inside a command",
        OpenedZero "with a zero verifier",
        CutBefore "the power is cut before the first store of an append",
        CutInBody "the power is cut inside the body",
        CutInLine "the power is cut inside the table's line",
        CutBeforeCount "the power is cut before the count",
        CutRecovery "the power is cut inside a recovery",
        RecoveredAfterCut "a recovery after a cut ends well",
        RecoveryRefused "the guard refuses a write of recovery",
        Abandoned "a transaction is given up",
        FullLog "a log is full",
        TakenOver "a desk takes over the log of one that is down",
        Committed "a transaction is committed",
        CommittedSeveral "several cards are committed at once",
        RecoveredMarked "a recovery on cards that bear the mark",
        BegunAgain "a log begins again",
        NotBegunAgain "a log does not, since something is due",
        DamagedImage "a damaged image",
        DamagedQueue "a damaged queue",
        DamagedLog "a damaged log",
        OldCommand "a command of version 1 comes to a store of version 2",
        NewCommand "a command of version 2 comes to a store of version 1",
        Misread "a command is taken for one of the other version",
        SessionAcross "a session goes on over a conversion",
        TooLarge "a conversion is refused for its size, and version 1 goes on",
        Largest "a store of 65,536 bytes",
        OldImage "a recovery for version 1 comes to a store of version 2",
        CutStream "a stream is cut inside a command",
        NoLine "a run has no room for the next line",
        RunOn "a run is gone on with",
        OtherRun "a run is of the other version than the store",
        HistoryFull "the history engine is full",
        HistoryLong "it has no room for a payload",
        OneDrop "one drop is compared in the two units",
        Parted "a drop is changed, and its translation is not",
        Malformed "a malformed command",
        Worn "a card with no edition left",
        FarClock "a clock from the far future",
        FarEdge "a stamp exactly 1,000,000 ahead",
    }
}

crate::named! {
    /// An operation of the library.
    Operation {
        Store "store",
        Ask "queue, asking",
        Leave "queue, leaving",
        Lapse "queue, lease",
        Propose "proposal",
        Shown "shown text",
        Store2 "store, version 2",
        Make2 "new image, version 2",
        Convert "conversion",
        Run "run",
        Run2 "run, version 2",
        History "history engine",
        Agree "two texts",
        Append "log, append",
        LogCheck "log, check",
        Recover "recovery",
        Make "new image",
        NextStep "next step",
    }
}

impl Operation {
    /// A request to a store of a version.
    pub fn store(format: Format) -> Operation {
        match format {
            Format::V1 => Operation::Store,
            Format::V2 => Operation::Store2,
        }
    }

    /// The numbers that must come.
    fn numbers(self) -> &'static [u8] {
        match self {
            Operation::Store => &[0, 1, 2, 3, 4, 5, 6, 7, 8, 9, 17],
            Operation::Ask => &[0, 1, 10, 11, 12, 13],
            Operation::Leave => &[0, 10, 15],
            Operation::Lapse => &[0, 10, 15, 21, 25],
            Operation::Propose => &[0, 1, 16],
            Operation::Shown => &[0, 1, 6, 8],
            Operation::Store2 => &[0, 1, 2, 3, 4, 5, 6, 7, 8, 9, 17],
            Operation::Make2 => &[0, 14],
            Operation::Convert => &[0, 9, 14],
            Operation::Run | Operation::Run2 => &[0, 1, 2, 3, 4, 5, 6, 8, 9, 17],
            Operation::History => &[0, 1, 2, 3, 4, 5, 6, 8, 17, 22],
            Operation::Agree => &[0, 18, 19, 20],
            Operation::Append => &[0, 23, 24, 26],
            Operation::LogCheck => &[0, 23],
            Operation::Recover => &[0, 1, 2, 3, 5, 7, 9, 17, 23],
            Operation::Make => &[0, 14],
            Operation::NextStep => &[0, 1, 2, 3, 4, 5, 6, 7, 8],
        }
    }
}

/// What was counted.
#[derive(Clone, Debug, PartialEq, Eq)]
pub struct Tally {
    /// All steps.
    pub steps: u64,
    /// The towns.
    pub towns: u64,
    kinds: [u64; Step::ALL.len()],
    faults: [u64; Fault::ALL.len()],
    numbers: [[u64; 32]; Operation::ALL.len()],
    /// The checks.
    pub made: Made,
}

impl Default for Tally {
    fn default() -> Tally {
        Tally {
            steps: 0,
            towns: 0,
            kinds: [0; Step::ALL.len()],
            faults: [0; Fault::ALL.len()],
            numbers: [[0; 32]; Operation::ALL.len()],
            made: Made::default(),
        }
    }
}

/// A count, with a mark at every thousand.
pub fn grouped(count: u64) -> String {
    let digits = count.to_string();
    let mut out = String::new();
    for (at, digit) in digits.chars().enumerate() {
        if at > 0 && (digits.len() - at).is_multiple_of(3) {
            out.push(',');
        }
        out.push(digit);
    }
    out
}

impl Tally {
    /// Counts a step.
    pub fn step(&mut self, step: Step) {
        self.kinds[step as usize] += 1;
    }

    /// Counts a fault.
    pub fn fault(&mut self, fault: Fault) {
        self.faults[fault as usize] += 1;
    }

    /// Counts a fault if it came.
    pub fn fault_if(&mut self, came: bool, fault: Fault) {
        self.faults[fault as usize] += u64::from(came);
    }

    /// How often a fault came.
    pub fn count(&self, fault: Fault) -> u64 {
        self.faults[fault as usize]
    }

    /// Counts a number of an operation.
    pub fn number(&mut self, operation: Operation, number: u8) {
        self.numbers[operation as usize][usize::from(number.min(31))] += 1;
    }

    /// What never came.
    pub fn missing(&self) -> Vec<String> {
        let mut missing = Vec::new();
        let mut look = |count: u64, words: String| {
            if count == 0 {
                missing.push(words);
            }
        };
        for step in Step::ALL {
            look(self.kinds[*step as usize], step.words().into());
        }
        for fault in Fault::ALL {
            look(self.faults[*fault as usize], fault.words().into());
        }
        for operation in Operation::ALL {
            for number in operation.numbers() {
                let count = self.numbers[*operation as usize][usize::from(*number)];
                look(count, format!("{}: {number}", operation.words()));
            }
        }
        for check in Check::ALL {
            look(self.made.0[*check as usize], check.words().into());
        }
        missing
    }

    /// The table at the end of a run.
    pub fn table(&self) -> String {
        let mut table = String::new();
        let row = |table: &mut String, count: u64, words: &str| {
            table.push_str(&format!("{:>15}  {words}\n", grouped(count)));
        };
        table.push_str("steps\n");
        for step in Step::ALL {
            row(&mut table, self.kinds[*step as usize], step.words());
        }
        table.push_str("faults\n");
        for fault in Fault::ALL {
            row(&mut table, self.faults[*fault as usize], fault.words());
        }
        table.push_str("numbers\n");
        for operation in Operation::ALL {
            let counts = self.numbers[*operation as usize].iter().enumerate();
            for (number, count) in counts.filter(|(_, count)| **count > 0) {
                row(
                    &mut table,
                    *count,
                    &format!("{} {number}", operation.words()),
                );
            }
        }
        table.push_str("checks\n");
        for check in Check::ALL {
            row(&mut table, self.made.0[*check as usize], check.words());
        }
        table
    }
}
