//! Each subcommand, called as a person calls it.

use std::io::Write;
use std::process::Stdio;

use crate::place::{Place, called};

const BOTH: &str = "\
exclusive write original of card 0 by (1.1.0, 1.1.0) text \"Drop at 205\"
exclusive write translation of card 0 by (2.2.0, 2.2.0) edition 1 text \"Tøm ved 205\"
";

fn with_both() -> Place {
    let place = Place::new();
    place.well("make cards --cards 3 --room 64");
    place.write("both", BOTH);
    place.well("send cards both");
    place
}

#[test]
fn an_image_is_made_and_checked() {
    let place = Place::new();
    assert_eq!(
        place.well("make cards --cards 2 --room 64"),
        "cards: made, version 1, 2 cards, room 64, 336 bytes\n"
    );
    assert_eq!(
        place.well("check cards"),
        "cards: sound: version 1, 2 cards, room 64, 336 bytes\n"
    );
    assert_eq!(
        place.well("make four --cards 1 --room 16 --version 2"),
        "four: made, version 2, 1 card, room 16, 144 bytes\n"
    );
    let before = place.read("cards");
    let told = place.fails(2, "make cards --cards 1 --room 16");
    assert_eq!(
        told,
        "cards: there is such a file already; nothing was changed"
    );
    assert_eq!(place.read("cards"), before);
}

#[test]
fn an_image_that_is_not_sound_is_told_with_card_byte_and_rule() {
    let place = with_both();
    let good = place.read("cards");
    for (at, value, right) in [
        (
            0,
            7,
            "not sound: byte 0: the first 16 bytes are not the header of an image (rule 2.3)",
        ),
        (
            4,
            9,
            "not sound: byte 4: the first 16 bytes are not the header of an image (rule 2.3)",
        ),
        (
            12,
            1,
            "not sound: byte 12: the first 16 bytes are not the header of an image (rule 2.3)",
        ),
        (
            6,
            0,
            "not sound: byte 6: no image has 0 cards with room 64 (rule 2.2)",
        ),
        (
            8,
            60,
            "not sound: byte 8: no image has 3 cards with room 60 (rule 2.2)",
        ),
        (
            8,
            32,
            "not sound: byte 304: 496 bytes, where the header says 304 (rule 2.6)",
        ),
        (
            16 + 32 + 16,
            5,
            "not sound: card 1, byte 64: the commit mark is half a mark (rule 1.7)",
        ),
        (16 + 4, 0, "sound"),
        (
            16 + 2,
            0,
            "not sound: card 0, byte 16: the stamp 2.0.0 has no desk (rule 1.2)",
        ),
        (
            16 + 18,
            1,
            "not sound: card 0, byte 34: a field of zeros has something else (rule 2.6)",
        ),
        (
            16 + 26,
            9,
            "not sound: card 0, byte 42: language 0 is made from an edition above the stored one (rule 2.6)",
        ),
        (
            16 + 28,
            65,
            "not sound: card 0, byte 44: the original is longer than the room (rule 2.6)",
        ),
        (
            112 + 60,
            1,
            "not sound: card 0, byte 172: bytes stand behind the original (rule 2.6)",
        ),
        (
            112 + 64 + 63,
            1,
            "not sound: card 0, byte 239: bytes stand behind language 0 (rule 2.6)",
        ),
    ] {
        let mut bytes = good.clone();
        bytes[at] = value;
        place.write("bad", bytes);
        let called = place.call("check bad");
        assert_eq!(called.status, i32::from(right != "sound"), "{called:?}");
        assert!(
            called.out.starts_with(&format!("bad: {right}")),
            "{at}: {called:?}"
        );
    }
    place.write("bad", &good[..100]);
    assert_eq!(
        place.call("check bad").out,
        "bad: not sound: byte 100: 100 bytes, where the header says 496 (rule 2.6)\n"
    );
    assert_eq!(
        place.fails(1, "show bad"),
        "bad: not sound: byte 100: 100 bytes, where the header says 496 (rule 2.6)"
    );
}

#[test]
fn a_list_is_sent_and_each_refusal_explained() {
    let place = with_both();
    place.write(
        "list",
        "\
exclusive write original of card 0 by (1.1.0, 1.1.0) text \"late\"
exclusive write original of card 0 by (3.1.0, 3.1.0) text \"Drop at 207\" # a newer one
shared read translation of card 0 by (4.2.0, 3.1.0)
exclusive write translation of card 0 by (4.2.0, 4.2.0) edition 1 text \"Tøm\"
exclusive verify of card 0 by (4.2.0, 4.2.0) next (2, 7)
shared read original of card 0 by (5.1.0, 4.2.0)
shared verify of card 9 by (5.1.0, 4.2.0)
shared verify of card 1 by (2000000.1.0, none)
shared verify of card 1 by (none, 1.1.0)
bytes 03 02
",
    );
    let called = place.call("send cards list");
    assert_eq!((called.status, called.told.as_str()), (1, ""));
    for part in [
        "  1  exclusive write original of card 0 by (1.1.0, 1.1.0) text \"late\"\n     3 stale (rule 4.2): it relies on s 1.1.0 and x 1.1.0, and s 2.2.0 and x 2.2.0 are stored.\n",
        "     0 accepted: edition 2 is written\n",
        "     6 translation behind (rule 4.6): the translation is of edition 1, and 2 stands: behind by 1.\n     Show no translation;",
        "     6 translation behind (rule 4.6): it is made from edition 1, and edition 2 stands.\n",
        "     0 accepted: the pair is (4.2.0, 4.2.0)\n",
        "     4 commit mark does not pass (rule 4.3): it expects no mark, and the card bears the mark of desk\n     2, transaction 7.\n",
        "     2 no such card (rule 4.1): it names card 9, and the cards are 0 to 2.\n",
        "     17 from too far ahead (rule 4.9): it would raise the pair to (2000000.1.0, none), and\n     (none, none) is stored.\n",
        "     1 malformed (rule 3.3): a shared command needs a stamp s.\n",
        "     1 malformed (rule 3.3): the bytes are not as many as the command says.\n",
        "2 accepted, 8 refused; cards is saved\n",
    ] {
        assert!(
            called.out.contains(part),
            "{part:?} is missing in\n{}",
            called.out
        );
    }
    assert!(
        called.out.lines().all(|line| line.chars().count() <= 100),
        "{}",
        called.out
    );
}

#[test]
fn a_text_too_long_and_editions_that_are_spent() {
    let place = Place::new();
    place.write(
        "text",
        "cards 1 room 16\ncard 0\n  original edition 65535 text \"Drop\"\n",
    );
    place.well("make cards --from text");
    place.write(
        "list",
        "\
exclusive write original of card 0 by (1.1.0, 1.1.0) text \"Drop at 205 degrees\"
exclusive write original of card 0 by (1.1.0, 1.1.0) text \"Drop at 205\"
exclusive write original of card 0 by (1.0.0, 1.1.0) text \"Drop at 205\"
shared write original of card 0 by (1.1.0, 1.1.0) text \"Drop at 205\"
exclusive verify of card 0 by (2.1.0, 2.1.0) opening (1.1.0, 1.1.0)
",
    );
    let called = place.call("send cards list");
    assert_eq!(called.status, 1);
    for part in [
        "     5 text longer than the room (rule 4.1): its text has 19 bytes, and there is room for 16.\n",
        "     7 no edition left (rule 4.1): edition 65535 is stored, the last.\n",
        "     1 malformed (rule 3.3): the stamp 1.0.0 has no desk.\n",
        "     1 malformed (rule 3.3): a write is exclusive.\n",
        "     1 malformed (rule 3.3): it relies on (2.1.0, 2.1.0), above (1.1.0, 1.1.0), which it opens.\n",
        "0 accepted, 5 refused; cards is as it was\n",
    ] {
        assert!(
            called.out.contains(part),
            "{part:?} is missing in\n{}",
            called.out
        );
    }
}

#[test]
fn a_dry_run_and_a_wrong_list_change_nothing() {
    let place = with_both();
    let before = place.read("cards");
    place.write(
        "list",
        "exclusive write original of card 0 by (3.1.0, 3.1.0) text \"Drop at 207\"\n",
    );
    let out = place.well("send cards list --dry-run");
    assert!(
        out.ends_with("1 accepted; cards is as it was (--dry-run)\n"),
        "{out}"
    );
    assert_eq!(place.read("cards"), before);
    place.write("wrong", "exclusive write original of card 0 by (3.1.0, 3.1.0) text \"Drop at 207\"\nexclusive wirte\n");
    let told = place.fails(2, "send cards wrong");
    assert_eq!(
        told,
        "wrong: line 2, column 11: an act is due, `read`, `write` or `verify`, not `wirte`"
    );
    assert_eq!(place.read("cards"), before);
    place.well("send cards list");
    assert_ne!(place.read("cards"), before);
}

#[test]
fn a_list_comes_from_standard_input_too() {
    let place = with_both();
    let mut command = place.command("send cards -");
    let mut child = command
        .stdin(Stdio::piped())
        .stdout(Stdio::piped())
        .spawn()
        .expect("it runs");
    let list = b"shared read translation of card 0 by (3.2.0, 2.2.0)\n";
    child
        .stdin
        .take()
        .expect("its input")
        .write_all(list)
        .expect("it reads");
    let called = called(child.wait_with_output().expect("it ends"));
    assert_eq!(called.status, 0);
    assert!(
        called
            .out
            .contains("0 accepted: made from edition 1, text \"Tøm ved 205\"\n"),
        "{}",
        called.out
    );
}

#[test]
fn a_table_tells_what_is_behind_and_marked_and_cut() {
    let place = with_both();
    place.write(
        "list",
        format!(
            "\
exclusive write original of card 0 by (3.1.0, 3.1.0) text \"Drop at 206\"
exclusive write original of card 0 by (4.1.0, 4.1.0) text \"Drop at 207\"
exclusive write original of card 2 by (1.1.0, 1.1.0) next (5, 7) text \"{}\"
",
            "long ".repeat(12)
        ),
    );
    place.well("send cards list");
    let out = place.well("show cards");
    let right = "\
cards: version 1, 3 cards, room 64, 496 bytes

card what         edition  state                 text
0    original     3                              \"Drop at 207\"
     translation  1        BEHIND by 2           \"Tøm ved 205\"
1                 nothing is written yet
2    original     1        marked by desk 5      \"long long long long long long long long … 60 bytes
     translation           not made yet

1 translation is behind, 1 card bears a mark, 1 text is cut short (--card shows it whole)
";
    assert_eq!(out, right);
    assert!(out.lines().all(|line| line.chars().count() <= 100));
    let one = place.well("show cards --card 2");
    assert!(
        one.contains("  mark: of desk 5, transaction 7\n") && one.contains(&"long ".repeat(12)),
        "{one}"
    );
    assert_eq!(
        place.fails(2, "show cards --card 3"),
        "there is no card 3: the image has the cards 0 to 2"
    );
}

#[test]
fn an_image_goes_through_its_text() {
    let place = with_both();
    let text = place.well("show cards --text");
    assert!(
        text.contains("  translation from 1 text \"Tøm ved 205\"\n"),
        "{text}"
    );
    place.write("text", &text);
    place.well("make again --from text");
    assert_eq!(place.read("again"), place.read("cards"));
}

#[test]
fn four_languages() {
    let place = with_both();
    assert_eq!(
        place.well("convert cards four"),
        "four: made, version 2, 3 cards, room 64, 1120 bytes\n"
    );
    assert_eq!(
        place.fails(1, "convert four again"),
        "four: it is an image of version 2 already (rule 15.10)"
    );
    place.write("list", "exclusive write translation in language 2 of card 0 by (3.3.0, 3.3.0) edition 1 text \"Vide à 205\"\n");
    assert_eq!(
        place.fails(2, "send cards list"),
        "list: line 1, column 41: version 1 has no language 2: it has language 0 alone"
    );
    place.well("send four list");
    let out = place.well("show four");
    for part in [
        "     language 0   1        current               \"Tøm ved 205\"\n",
        "     language 2   1        current               \"Vide à 205\"\n",
        "     others                not made yet\n",
    ] {
        assert!(out.contains(part), "{part:?} is missing in\n{out}");
    }
    let text = place.well("show four --text");
    place.write("text", &text);
    place.well("make again --from text");
    assert_eq!(place.read("again"), place.read("four"));
    place.well("make large --cards 31 --room 1024");
    assert_eq!(
        place.fails(1, "convert large larger"),
        "large: too large for four translations of each card: cards 31: with room 1024 an image of version 2 has at most 12 cards (rule 15.10)"
    );
}

#[test]
fn numbers_are_explained() {
    let place = Place::new();
    let three = place.well("explain 3");
    assert!(
        three.starts_with(
            "3 stale (rule 4.2; STALE in programs)\nIt means: A command with a newer pair"
        ),
        "{three}"
    );
    assert_eq!(place.well("explain stale"), three);
    assert_eq!(place.well("explain").lines().count(), 27);
    assert_eq!(place.well("explain behind"), place.well("explain 6"));
    assert_eq!(place.well("explain MARK_DIFFERS"), place.well("explain 4"));
    assert!(
        place
            .fails(2, "explain log")
            .starts_with("`log` is no number")
    );
    assert_eq!(
        place.fails(2, "explain 27"),
        "`27` is no number of an answer, nor the name of one; they are 0 to 26, and `lupaniele explain` lists them"
    );
    assert_eq!(
        place.fails(2, "explain malformd"),
        "`malformd` is no number of an answer, nor the name of one; did you mean `malformed`?"
    );
}

#[test]
fn texts_are_compared_step_by_step() {
    let place = Place::new();
    place.write("english", "steps\n  words \"Drop at\"\n  drop 205.0 C\n");
    place.write("same", "steps\n  words \"Tøm ved\"\n  drop 401.0 F\n");
    place.write("other", "steps\n  words \"Tøm ved\"\n  drop 402.0 F\n");
    place.write(
        "more",
        "steps\n  words \"Tøm ved\"\n  drop 205.0 C\n  section\n    words \"Cool\"\n",
    );
    assert_eq!(
        place.well("compare english same"),
        "english and same agree: 1 drop is the same\n"
    );
    let called = place.call("compare english other");
    let right = "english and other differ (rule 12.10)\nstep 2: `drop 205.0 C` and `drop 402.0 F` are 1.00 F (0.56 C) apart, more than 0.50 F\n";
    assert_eq!((called.status, called.out.as_str()), (1, right));
    let called = place.call("compare english more");
    assert_eq!(
        called.out,
        "english and more differ (rule 12.10)\nstep 3: the first text has no step like `section`\n"
    );
    place.well("make cards --cards 1 --room 64");
    place.write("list", "\
exclusive write original of card 0 by (1.1.0, 1.1.0) steps
  words \"Drop at\"
  drop 205.0 C
exclusive write translation of card 0 by (1.1.0, 1.1.0) edition 1 steps (words \"Tøm ved\", drop 402.0 F)
");
    place.well("send cards list");
    let called = place.call("compare cards --card 0");
    assert!(
        called.status == 1
            && called
                .out
                .contains("step 2: `drop 205.0 C` and `drop 402.0 F` are"),
        "{called:?}"
    );
    assert!(
        place
            .well("show cards --card 0")
            .contains("    steps\n      words \"Drop at\"\n      drop 205.0 C\n")
    );
    assert_eq!(
        place.fails(2, "compare cards"),
        "SECOND is missing, or --card K of an image"
    );
    assert!(
        place
            .fails(2, "compare cards english")
            .starts_with("cards: this is an image; compare the texts of a card with --card K")
    );
}

#[test]
fn what_is_not_written_cannot_be_compared() {
    let place = Place::new();
    place.well("make one --cards 1 --room 64");
    place.well("make four --cards 1 --room 64 --version 2");
    let written = "exclusive write original of card 0 by (1.1.0, 1.1.0) steps (drop 205.0 C)\n";
    place.write("list", written);
    let none = "is not written yet, so there is nothing to compare\n";
    let told = |words: &str, right: String| {
        let called = place.call(words);
        assert_eq!((called.status, called.out), (1, right), "{words}");
    };
    told(
        "compare one --card 0",
        format!("card 0: its original {none}"),
    );
    place.well("send one list");
    place.well("send four list");
    told(
        "compare one --card 0",
        format!("card 0: translation {none}"),
    );
    told(
        "compare four --card 0 --language 3",
        format!("card 0: language 3 {none}"),
    );
    assert_eq!(
        place.fails(2, "compare one --card 0 --language 1"),
        "--language 1: an image of version 1 has language 0 alone"
    );
    assert_eq!(
        place.fails(2, "compare four --card 0 --language 4"),
        "--language 4: an image of version 2 has the languages 0 to 3"
    );
}

#[test]
fn a_story_with_a_refusal_is_played() {
    let place = Place::new();
    place.write(
        "story",
        "cards 1 room 16\nshared read original of card 7 by (1.1.0, none)\n",
    );
    let told = place.well("play story");
    assert!(told.contains("     2 no such card (rule 4.1): "), "{told}");
}

#[test]
fn one_byte_is_no_bytes() {
    let place = Place::new();
    place.well("make cards --cards 1 --room 16");
    let list = "exclusive write original of card 0 by (1.1.0, 1.1.0) text \"a\"\n";
    place.write("list", list);
    place.well("send cards list");
    let out = place.well("show cards --card 0");
    assert!(out.contains("  original: edition 1, 1 byte\n"), "{out}");
}

#[test]
fn a_translation_of_nothing_is_told_so() {
    let place = Place::new();
    place.well("make cards --cards 1 --room 64");
    let list = "exclusive write translation of card 0 by (1.1.0, 1.1.0) edition 1 text \"401\"\n";
    place.write("list", list);
    let right = "6 translation behind (rule 4.6): it is made from edition 1, and there is no original yet.\n";
    let called = place.call("send cards list");
    assert!(
        called.status == 1 && called.out.contains(right),
        "{called:?}"
    );
}

#[test]
fn a_log_is_kept_cut_and_recovered() {
    let place = with_both();
    assert_eq!(
        place.well("log make log"),
        "log: made, a log of 8192 bytes with 0 records\n"
    );
    place.write(
        "records",
        "\
begin 1
update original of card 0 text \"Drop at 207\"
update translation of card 0 text \"Tøm ved 207\"
commit 1
begin 2 cut after 9
",
    );
    let called = place.call("log append log records");
    assert_eq!(called.status, 1);
    assert!(
        called
            .out
            .contains("  5  begin 2\n     26 append cut (rule 11.11): "),
        "{}",
        called.out
    );
    assert_eq!(
        place.well("log check log"),
        "log: good: a log of 8192 bytes with 4 records\n"
    );
    let out = place.well("log show log");
    assert!(
        out.contains("  1  due  update original of card 0 text \"Drop at 207\"\n"),
        "{out}"
    );
    assert!(
        out.contains("behind the records stands what a cut append left"),
        "{out}"
    );
    let text = place.well("log show log --text");
    assert!(text.contains("\nleft at "), "{text}");
    place.write("text", &text);
    place.well("log make again --from text");
    assert_eq!(place.read("again"), place.read("log"));
    let before = place.read("cards");
    place.well("log recover log cards --desk 1.1 --dry-run");
    assert_eq!(place.read("cards"), before);
    let out = place.well("log recover log cards --desk 1.1");
    let right = "\
record 1, transaction 1: original of card 0: written under (2.2.0, 3.1.1)
record 2, transaction 1: translation of card 0: written under (2.2.0, 3.1.1)
noted in the log: synced card 0 transaction 1
";
    assert_eq!(out, right);
    assert!(place.well("show cards --card 0").contains(
        "translation: made from edition 2, current, 12 bytes\n    text \"Tøm ved 207\"\n"
    ));
    assert!(
        place
            .well("log show log")
            .ends_with("nothing is due: every committed update is noted as synced\n")
    );
    assert_eq!(
        place.well("log recover log cards --desk 1.2"),
        "nothing is due\n"
    );
    place.write("wrong", "commit 9\n");
    let called = place.call("log append log wrong");
    assert!(
        called.status == 1 && called.out.contains("23 bad log or record (rule 11.6): it commits transaction 9, and no transaction is open."),
        "{called:?}"
    );
}

#[test]
fn a_recovery_that_is_refused_stops_there() {
    let place = with_both();
    place.well("log make log");
    place.write(
        "records",
        "\
begin 1
update original of card 1 text \"Drop at 207\"
update original of card 9 text \"Drop at 208\"
update original of card 2 text \"Drop at 209\"
commit 1
",
    );
    place.well("log append log records");
    let called = place.call("log recover log cards --desk 1.1");
    let right = "\
record 1, transaction 1: original of card 1: written under (none, 0.1.1)
record 2, transaction 1: original of card 9: 2 no such card (rule 4.1)
     The image has no card of that number.
";
    assert_eq!((called.status, called.out.as_str()), (1, right));
    let shown = place.well("show cards");
    assert!(
        shown.contains("\"Drop at 207\"") && !shown.contains("\"Drop at 209\""),
        "{shown}"
    );
    assert!(place.well("log show log").contains("3 updates are due"));
}

#[test]
fn a_marked_card_is_finished_by_its_desk_alone() {
    let place = with_both();
    place.well("log make log");
    place.write(
        "prepare",
        "exclusive verify of card 0 by (3.1.0, 3.1.0) next (1, 1)\n",
    );
    place.write(
        "records",
        "begin 1\nupdate original of card 0 text \"Drop at 207\"\ncommit 1\n",
    );
    place.well("log append log records");
    place.well("send cards prepare");
    let before = (place.read("cards"), place.read("log"));
    let right = "1 update written, 1 card noted as synced\n";
    assert_eq!(
        place.well("log recover log cards --desk 1.1 --marked --dry-run"),
        format!("{right}nothing was changed (--dry-run)\n")
    );
    assert!(before == (place.read("cards"), place.read("log")));
    assert_eq!(
        place.well("log recover log cards --desk 1.1 --marked"),
        right
    );
    let out = place.well("show cards --card 0");
    assert!(
        out.contains("  mark: none\n") && out.contains("text \"Drop at 207\"\n"),
        "{out}"
    );
}
