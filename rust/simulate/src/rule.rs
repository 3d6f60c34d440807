//! The rules of sections 10 and 16 that a run may break, one at a time, to show
//! what each is for.

crate::named! {
    /// A rule, by what is done where it is broken.
    Rule {
        StartAgain "10.9: a desk comes back under the same start number",
        KnewSomething "10.9: a desk knows something at its start",
        NeverProposed "10.8: a command under a pair that nobody proposed",
        OtherMode "10.8: a command in the mode in which its pair was not proposed",
        OtherCard "10.8: a command for a card for which its pair was not proposed",
        HalfLearnt "10.2: an x is learnt without the s beside it",
        LearntElsewhere "10.1: a pair is learnt of a card for which it was not told",
        OwnForgotten "10.7: a desk does not learn its own proposal",
        NotAbove "10.4: a shared proposal whose s is not above the known one",
        GuessedX "10.4: a shared proposal whose x is not the known one",
        KeptX "10.5: an exclusive proposal whose x is not above the known one",
        UsedQueue "10.11: a queue is not empty at the opening",
        MarkTakenOff "16.3: somebody takes a mark off",
        MarkPutOn "16.3: somebody puts a mark on",
        OrdersUnderOne "16.4: orders under one pair",
        OrderGuessed "16.4: an order on an x that no answer has shown",
        PreparedDue "16.5: a card is prepared while an update of it is due",
        WrittenEarly "16.6: an update is written before the commit",
        LineSkipped "16.6: an update is written before one in front of it",
        ReleasedUnwritten "16.7: a card is released unwritten",
        CommitsUnheld "16.8: a commit of a card that is not held",
        NotedMarked "16.9: a synced record of a card that bears the mark",
        RecoversUnmarked "16.13: a recovery of a card that does not bear the mark",
        RecoversStored "16.13: a recovery under the stored x",
        BegunAgainDue "16.18: a log begins again while something is due",
        Unwritable "16.21: a commit of an update that cannot be written",
        TwoHolders "16.23: a log is held by two",
        EarlierAnswer "16.24: the answer to an earlier command is looked at",
    }
}

impl Rule {
    /// Whether it is a rule of section 16, on transactions; else it is one of
    /// section 10, on what desks propose.
    pub fn of_transactions(self) -> bool {
        self as usize >= Rule::MarkTakenOff as usize
    }

    /// The rule with this name, as `{:?}` writes it.
    pub fn named(name: &str) -> Option<Rule> {
        let mut all = Rule::ALL.iter().copied();
        all.find(|rule| format!("{rule:?}") == name)
    }
}
