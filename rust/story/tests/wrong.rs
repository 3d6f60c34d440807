//! Every line that cannot be read is told by line and column, with what would be right.

use story::Story;

const HEAD: &str = "# A title\ncards 2 room 32\n";

/// Where a text is wrong, and why.
fn wrong(text: &str) -> (usize, usize, String) {
    match Story::read(text) {
        Ok(story) => panic!("{text:?} is read as {story:?}"),
        Err(wrong) => (wrong.line, wrong.column, wrong.told),
    }
}

/// A line behind a good beginning is wrong at that column, and the reason has these words.
#[track_caller]
fn line(line: &str, column: usize, words: &str) {
    let (at, found, told) = wrong(&format!("{HEAD}\n# a note\n{line}\n"));
    assert_eq!((at, found), (5, column), "{line}: {told}");
    assert!(told.contains(words), "{line}: {told}");
}

#[test]
fn beginnings() {
    assert_eq!(wrong("").0, 1);
    assert_eq!(wrong("# a title\n").0, 1);
    assert_eq!(wrong("cards 1 room 60\n").1, 14);
    assert_eq!(wrong("card 1 room 16\n").1, 1);
    assert_eq!(wrong("desk 1.0 starts\n").1, 1);
    let (line, column, told) = wrong("\u{feff}cards 1 room 16\n");
    assert!(told.contains("byte order mark"), "{line} {column} {told}");
    let (line, column, told) = wrong("cards 1 room 16\r\n");
    assert_eq!((line, column), (1, 16), "{told}");
}

#[test]
fn desks() {
    line("desk", 5, "as in 1.0");
    line("desk 1 starts", 6, "as in 1.0");
    line("desk 1.70000 starts", 6, "as in 1.0");
    line("desk 1.0", 9, "`asks`");
    line("desk 1.0 sleeps", 10, "`falls silent`");
    line("desk 1.0 goes up", 15, "`down` is due, not `up`");
    line("desk 1.0 falls asleep", 16, "`silent`");
    line("desk 1.0 starts again", 17, "end");
}

#[test]
fn queues() {
    line("desk 1.0 asks", 14, "`shared` or `exclusive`");
    line(
        "desk 1.0 asks half for card 0",
        15,
        "`shared` or `exclusive`",
    );
    line("desk 1.0 asks shared of card 0", 22, "`for`");
    line("desk 1.0 asks shared for card x", 31, "the card");
    line("desk 1.0 asks shared for card 70000", 31, "65535");
    line("desk 1.0 asks shared for card 0 by 1.1.0", 36, "`(`");
    line(
        "desk 1.0 asks shared for card 0 by (1.1, none)",
        37,
        "stamp",
    );
    line(
        "desk 1.0 asks shared for card 0 by (1.2.0, none)",
        36,
        "desk 2.0",
    );
    line(
        "desk 1.0 upgrades for card 0 by (1.1.0, 1.1.1)",
        33,
        "desk 1.1",
    );
    line("desk 1.0 leaves 0", 17, "`card`");
    line("desk 1.0 lapses for card 0", 27, "`period`");
    line("desk 1.0 lapses for card 0 period long", 35, "the period");
    line(
        "desk 1.0 lapses for card 0 period 30 drift 0 begin 0",
        53,
        "`now`",
    );
    line("queue for card 0", 17, "`begins`");
    line("queue for card 0 begins with 0 places", 30, "1 to 32");
    line("queue for card 0 begins with 33 places", 30, "1 to 32");
    line(
        "queue for card 0 begins with four places",
        30,
        "number of places",
    );
}

#[test]
fn logs_and_recovery() {
    line("desk 1.0 logs", 14, "`begin`");
    line("desk 1.0 logs rollback 1", 15, "`begin`");
    line("desk 1.0 logs begin", 20, "transaction");
    line("desk 1.0 logs begin 4294967296", 21, "4294967295");
    line("desk 1.0 logs begin 1 cut 9", 27, "`after`");
    line("desk 1.0 logs begin 1 cut after 16", 33, "15");
    line(
        "desk 1.0 logs update half of card 0 text \"2\"",
        22,
        "`original`",
    );
    line("desk 1.0 recovers card 0 with (1.1.0, 1.1.0)", 26, "`by`");
    line("desk 1.0 recovers everything", 19, "end");
}

#[test]
fn commands_and_the_rest() {
    line("shard verify of card 0 by (1.1.0, none)", 1, "`shared");
    line("shared veriify of card 0", 8, "`verify`");
    line("shared verify of card 0 by (1.1.0 none)", 35, "`,`");
    line("shared verify of card 0 by (1.1.0, none) so", 42, "end");
    line(
        "exclusive write original of card 0 by (1.1.0, 1.1.0) text \"2",
        59,
        "not closed",
    );
    line(
        "shared read translation in language 1 of card 0 by (1.1.0, none)",
        37,
        "version 1",
    );
    line("shared verify; of", 14, "`;`");
    line("bytes 0g", 7, "base 16");
    line("name 1 \"English\"", 6, "`desk`");
    line("name desk 1 English", 13, "quotes");
    line("name desk 1 \"\"", 13, "words");
    line("name desk 1 \"two\\nlines\"", 13, "one line");
    line("store converts to version 3", 27, "`2`");
    line("store burns down", 7, "`converts`");
    line("  desk 1.0 starts", 3, "indented");
}

#[test]
fn cards_stand_in_front_of_the_steps() {
    let (line, column, told) = wrong(&format!("{HEAD}desk 1.0 starts\ncard 0\n"));
    assert_eq!((line, column), (4, 1), "{told}");
}

#[test]
fn nothing_stands_under_a_line() {
    let (line, column, told) = wrong(&format!("{HEAD}desk 1.0 starts\n  desk 2.0 starts\n"));
    assert_eq!((line, column), (4, 3), "{told}");
}
