//! The words of the numbers. `tools/numbers` makes this file from
//! include/numbers.txt; change that one.

/// What is said of a number.
pub(crate) struct Row {
    /// The name of its constant.
    pub(crate) constant: &'static str,
    /// The number in a few words.
    pub(crate) name: &'static str,
    /// The rule of docs/RULES.md that says when it is given.
    pub(crate) rule: &'static str,
    /// What it means.
    pub(crate) meaning: &'static str,
    /// What a desk that gets it may do now.
    pub(crate) advice: &'static str,
}

/// The rows, by number.
pub(crate) const NUMBERS: [Row; 27] = [
    Row {
        constant: "ACCEPTED",
        name: "accepted",
        rule: "5.1",
        meaning: "What was asked for is done.",
        advice: "Go on, and learn the pair that came with the answer, if one did.",
    },
    Row {
        constant: "MALFORMED",
        name: "malformed",
        rule: "3.3",
        meaning: "What was sent breaks its layout, or lacks a mode, a desk or a stamp that it must have.",
        advice: "Mend what built it: the same again gets the same answer.",
    },
    Row {
        constant: "NO_CARD",
        name: "no such card",
        rule: "4.1",
        meaning: "The image has no card of that number.",
        advice: "Name a card below the image's number of cards.",
    },
    Row {
        constant: "STALE",
        name: "stale",
        rule: "4.2",
        meaning: "A command with a newer pair was accepted first, so the pair that this one relies on is too old.",
        advice: "Learn the pair of the answer, propose a new one, read the card again, and decide anew.",
    },
    Row {
        constant: "MARK_DIFFERS",
        name: "commit mark does not pass",
        rule: "4.3",
        meaning: "The stored commit mark is another desk's, or of a later transaction than the one expected.",
        advice: "Read the card under the mark of the answer, and expect that mark if you send again.",
    },
    Row {
        constant: "PAYLOAD_LONG",
        name: "text longer than the room",
        rule: "4.1",
        meaning: "The text is longer than the room that the image has for one.",
        advice: "Shorten the text, or keep the card in an image with more room.",
    },
    Row {
        constant: "EDITION_WRONG",
        name: "translation behind",
        rule: "4.6",
        meaning: "The translation was not made from the original as it stands, or names another edition than the stored one.",
        advice: "Show no translation; translate the original of the answer's edition, and write that.",
    },
    Row {
        constant: "EDITIONS_SPENT",
        name: "no edition left",
        rule: "4.1",
        meaning: "The original was written 65,535 times, and its edition can grow no further.",
        advice: "Keep its texts on a card that has editions left.",
    },
    Row {
        constant: "REPLY_SHORT",
        name: "buffer too short",
        rule: "4.1",
        meaning: "The text is longer than the lent reply buffer, or a length is beyond its buffer.",
        advice: "Lend as many bytes as the image has room for a text, and ask again.",
    },
    Row {
        constant: "UNSOUND",
        name: "image not sound",
        rule: "2.6",
        meaning: "The bytes are no sound image of the version that was called.",
        advice: "Serve nothing from it: call the functions of its own version, or go back to a copy that is sound.",
    },
    Row {
        constant: "BAD_QUEUE",
        name: "bad queue",
        rule: "7.4",
        meaning: "The queue has too few or too many places, or a count, an entry or a largest pair that no requests leave.",
        advice: "Begin again with an empty queue.",
    },
    Row {
        constant: "PAIR_DENIED",
        name: "denied",
        rule: "7.7",
        meaning: "A newer pair was accepted in this queue.",
        advice: "Learn the largest pair of the answer, propose again, and ask with that.",
    },
    Row {
        constant: "STANDS_ALREADY",
        name: "stands already",
        rule: "7.9",
        meaning: "The desk stands in the queue, and this is no upgrade from shared to exclusive.",
        advice: "Use the place that it has, or leave it first.",
    },
    Row {
        constant: "QUEUE_FULL",
        name: "queue full",
        rule: "7.6",
        meaning: "Every place of the queue is taken.",
        advice: "Ask again once a desk has left.",
    },
    Row {
        constant: "NOT_MADE",
        name: "no such image can be made",
        rule: "2.7",
        meaning: "The number of cards, the room or the length of the lent bytes is none that an image has.",
        advice: "Choose numbers within the limits, and lend exactly the bytes that they need.",
    },
    Row {
        constant: "NOT_STANDING",
        name: "does not stand",
        rule: "7.12",
        meaning: "This desk, with this start, does not stand in the queue.",
        advice: "Nothing: it has no place to give back.",
    },
    Row {
        constant: "NO_STAMP_LEFT",
        name: "no stamp left",
        rule: "10.6",
        meaning: "A new stamp of this desk would need a T above the largest there is.",
        advice: "Keep the texts on a card whose stamps are not spent.",
    },
    Row {
        constant: "TOO_FAR",
        name: "from too far ahead",
        rule: "4.9",
        meaning: "A stamp's T is more than 1,000,000 above the stored one, as from a broken clock.",
        advice: "Begin again under a new start number, learn the pair of the answer, and propose from that.",
    },
    Row {
        constant: "FIRST_ILL",
        name: "first text ill formed",
        rule: "12.1",
        meaning: "The first text is not one whole section, as a structured text is.",
        advice: "Mend the first text, then compare.",
    },
    Row {
        constant: "SECOND_ILL",
        name: "second text ill formed",
        rule: "12.1",
        meaning: "The second text is not one whole section, as a structured text is.",
        advice: "Mend the second text, then compare.",
    },
    Row {
        constant: "UNMATCHED",
        name: "texts differ",
        rule: "12.10",
        meaning: "A step of one text has no match in the other: its kind, its drop or its place differs.",
        advice: "Look at the step at the place of the answer, and mend the text that is wrong.",
    },
    Row {
        constant: "LEASE_OUT_OF_RANGE",
        name: "lease out of range",
        rule: "13.2",
        meaning: "The lease's period or drift, or one of the two times, is outside its limits or no number.",
        advice: "Mend the lease or the clock: until then nobody leaves by it.",
    },
    Row {
        constant: "HISTORY_FULL",
        name: "history full",
        rule: "14.2",
        meaning: "With one more accepted command the history would have more commands or payload bytes than it keeps.",
        advice: "Send it to a store with an image, which has no such limit.",
    },
    Row {
        constant: "BAD_LOG",
        name: "bad log or record",
        rule: "11.6",
        meaning: "The log breaks its layout or its order, or the record to append would.",
        advice: "Mend the record; where the log itself is bad, recover from a copy that is good.",
    },
    Row {
        constant: "LOG_FULL",
        name: "log full",
        rule: "11.11",
        meaning: "The log has all its records, or no room for this one behind the last.",
        advice: "Write every committed update to its card, then begin a new log.",
    },
    Row {
        constant: "LEASE_RUNS",
        name: "lease still runs",
        rule: "13.4",
        meaning: "The desk's lease, lengthened by the drift of clocks, is not over.",
        advice: "Wait, and try again at a later time.",
    },
    Row {
        constant: "APPEND_CUT",
        name: "append cut",
        rule: "11.11",
        meaning: "The stores ended before the append was whole, and the log reads back as before it.",
        advice: "Append the record again, with stores enough for all of it.",
    },
];
