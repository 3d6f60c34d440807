//! What is checked after every step, in plain Rust written from
//! `docs/RULES.md`. Nothing here calls the library, and nothing looks at an
//! image but to compare it with the bytes that the rules give.

pub mod atomic;
pub mod desk;
pub mod formed;
pub mod history;
pub mod isolation;
pub mod log;
pub mod queue;
pub mod recovery;
pub mod runs;
pub mod steps;
pub mod store;
pub mod texts;
pub mod versions;

crate::named! {
    /// A thing that is checked.
    Check {
        Late "9.2: 3 exactly when an earlier accepted command is larger",
        Future "9.7: 17 exactly when a stamp is more than 1,000,000 ahead",
        Behind "9.3: a translation's read gets 6 exactly when it is behind",
        Shows "9.4: an accepted read shows the text accepted last",
        Premise "9.5, 10.11: desks by the rules keep the premise",
        Isolated "9.6: under the premise sessions are isolated",
        Outright "10.12: desks by the rules are isolated outright",
        RefusedStore "4.1: a refusal changes no byte of image and reply buffer",
        Number "4.1: the store's number",
        Fields "4.8: the seven reply fields",
        Reply "4.7: the reply buffer, to its last byte",
        Image "4.4, 4.5: the image, to its last byte",
        Sound "2.6: the image is sound",
        Made "2.7: making an image",
        OtherVersion "15.13: what is of the other version gets 9, and changes nothing",
        Number2 "15.7, 15.8: the number in version 2",
        Fields2 "15.8: the seven reply fields, of the language named",
        Image2 "15.3, 15.4: the image of version 2, to its last byte",
        Behind2 "15.8: a language's read gets 6 exactly when that language is behind",
        Shows2 "15.8: an accepted read shows the text accepted last in its language",
        Converted "15.9, 15.10: a conversion's number, and every byte that it makes",
        AcrossLate "15.12: what is late by a command before the conversion gets 3",
        AcrossShows "15.12: language 0 shows the translation of before the conversion",
        Walk "8.1, 8.2: where the whole commands of a stream end",
        RunLines "8.7: the lines of a run",
        RunEnd "8.2, 8.7: how many commands a run judges, and where it stops",
        RunBuffers "8.5: the image and the reply buffer that a run leaves",
        History "14.10: the history engine answers as the store does",
        HistoryFull "14.2, 14.11: 22 exactly at a limit, where the store accepts",
        HistoryBytes "14.3, 14.8, 14.9: every byte that the history engine keeps",
        AnyHistory "14.4 to 14.9: any bytes and any number mean some history",
        Agree "12.9, 12.10: the number and the place of two texts",
        EitherWay "12.8: two texts agree either way round",
        SameDrops "4.6, 12.8: a careful translation that is current has the original's drops",
        RefusedQueue "7.11: what is refused changes no byte of a queue",
        QueueNumber "7.6, 7.12, 13.5: the queue's number",
        QueueHolds "7.5: who holds the lock, and never two against each other",
        QueueFields "7.14: the largest pair, and how many were looked at",
        QueuePlaces "7.10, 7.13: every place of the queue",
        NotDenied "10.10: who learns a denial's pair is not denied",
        Learnt "10.2: what a desk knows when it has learnt",
        Proposed "10.4 to 10.7: a proposal, and what the desk knows then",
        StampsOnce "10.13: no two exclusive proposals have one x",
        ShownPart "6.2, 6.3: what a desk shows",
        AppendNumber "11.11: the number of an append",
        ReadBack "11.13: a log reads back as before the append or after it",
        LogBytes "11.10, 11.12: every byte of the log",
        LogGood "11.8: whether a log is good",
        RefusedRecovery "11.19: 23 writes nothing",
        Recovered "11.21: the texts of the committed transactions, after recovery",
        RecoveryNumber "11.19: recovery's number and line",
        Twice "11.21: a second recovery leaves the same texts",
        OwnQueue "7.16, 10.23: a queue is by its own accepted requests alone",
        InItsMode "10.8: an ask and a command carry a pair in the mode in which it was proposed",
        Heard "16.24: what a desk has seen of a card",
        NextStep "16.25: the next step for a card",
        BeginAgain "16.27: a log begins again where nothing is due",
        Meant "16.11: a card has the texts that are meant",
        MeantCurrent "16.19: a translation is current where it is meant to be",
        ReadsMeant "16.12: an accepted read shows the text that is meant",
        ReadsCurrent "16.20: a translation is read where it is meant to be current, and else gets 6",
        StepsEnd "16.28: the steps end, with no mark left and nothing due",
    }
}

/// A check that failed, and what was seen.
#[derive(Clone, Debug, PartialEq, Eq)]
pub struct Breach {
    /// The check.
    pub check: Check,
    /// What was seen, and what the rules say.
    pub told: String,
}

/// What a check answers.
pub type Checked<T = ()> = Result<T, Breach>;

/// How often each check was made.
#[derive(Clone, Debug, PartialEq, Eq)]
pub struct Made(pub [u64; Check::ALL.len()]);

impl Default for Made {
    fn default() -> Made {
        Made([0; Check::ALL.len()])
    }
}

impl Made {
    /// Counts a check, and says what is wrong if it does not hold.
    pub fn hold(&mut self, check: Check, holds: bool, told: impl FnOnce() -> String) -> Checked {
        self.0[check as usize] += 1;
        match holds {
            true => Ok(()),
            false => Err(Breach {
                check,
                told: told(),
            }),
        }
    }

    /// Two values are the same.
    pub fn same<T: PartialEq + std::fmt::Debug>(
        &mut self,
        check: Check,
        library: T,
        rules: T,
    ) -> Checked {
        let holds = library == rules;
        self.hold(check, holds, || {
            format!("the library: {library:?}; the rules: {rules:?}")
        })
    }
}
