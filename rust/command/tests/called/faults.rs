//! What goes wrong outside: wrong words, files that are none, disks that are full, readers that go away.

use std::fs::{self, File, OpenOptions};
use std::io::Read;
use std::process::Stdio;

use crate::place::{Place, called};

#[test]
fn wrong_words_are_told_and_what_would_be_right() {
    let place = Place::new();
    for (words, right) in [
        (
            "chek cards",
            "there is no `lupaniele chek`; did you mean `check`?",
        ),
        (
            "log",
            "there is no `lupaniele log`; there is log make, log check, log show, log append, log recover",
        ),
        (
            "log shwo x",
            "there is no `lupaniele log shwo`; did you mean `log show`?",
        ),
        (
            "check",
            "check: FILE is missing; usage: lupaniele check FILE",
        ),
        (
            "check a b",
            "check: \"b\" is one word too many; usage: lupaniele check FILE",
        ),
        (
            "show a --jsno",
            "show: there is no option --jsno; did you mean --json? usage: lupaniele show FILE [--card K] [--json] | --text",
        ),
        (
            "make cards",
            "--cards is missing; an image has 1 to 128 cards (rule 2.2)",
        ),
        (
            "make cards --cards 1",
            "--room is missing; a text has room for 16 to 1024 bytes, a multiple of 16 (rule 2.2)",
        ),
        (
            "make cards --cards x --room 16",
            "--cards x: a whole number is due; an image has 1 to 128 cards (rule 2.2)",
        ),
        (
            "make cards --cards 99999999999999999999 --room 16",
            "--cards 99999999999999999999: it is too large; an image has 1 to 128 cards (rule 2.2)",
        ),
        (
            "log make log --bytes 99999999999999999999",
            "--bytes 99999999999999999999: it is too large; a log has 2201 to 65536 bytes (rule 11.1)",
        ),
        (
            "make cards --cards 1 --room 60",
            "--room 60: a text has room for a multiple of 16 bytes, such as 48 or 64 (rule 2.2)",
        ),
        (
            "make cards --cards 1 --room 16 --version 3",
            "--version 3: it is 1 or 2",
        ),
        (
            "make nowhere/cards --cards 1 --room 16",
            "nowhere/cards: the folder for it is not there",
        ),
        (
            "show cards --card 65536",
            "--card 65536: it is too large; the cards of an image are 0 to 127 at the most (rule 2.2)",
        ),
        ("show cards", "cards: there is no such file"),
        ("send cards list", "cards: there is no such file"),
        (
            "log recover log cards",
            "--desk D.S is needed: the desk, 1 to 65535, and a start that it never had, 0 to 65535, as in 1.1 (rule 10.9)",
        ),
        (
            "log recover log cards --desk x",
            "--desk x: the desk, 1 to 65535, and a start that it never had, 0 to 65535, as in 1.1 (rule 10.9)",
        ),
        (
            "log recover log cards --desk 65536.1",
            "--desk 65536.1: the desk, 1 to 65535, and a start that it never had, 0 to 65535, as in 1.1 (rule 10.9)",
        ),
        (
            "make - --cards 1 --room 16",
            "-: this is standard input, and a file that can be written is due",
        ),
        (
            "convert cards -",
            "-: this is standard input, and a file that can be written is due",
        ),
        (
            "log make -",
            "-: this is standard input, and a file that can be written is due",
        ),
        (
            "log append - list",
            "-: this is standard input, and a file that can be written is due",
        ),
        (
            "log recover - cards --desk 1.1",
            "-: this is standard input, and a file that can be written is due",
        ),
        (
            "log recover log - --desk 1.1",
            "-: this is standard input, and a file that can be written is due",
        ),
        (
            "send - list",
            "-: this is standard input, and a file that can be written is due",
        ),
    ] {
        assert_eq!(place.fails(2, words), right, "{words}");
    }
    assert!(
        place
            .fails(2, "")
            .starts_with("what is to be done?\n\nlupaniele: looks at")
    );
    assert!(
        place
            .fails(2, "xyzzy")
            .starts_with("there is no `lupaniele xyzzy`; there is make, check")
    );
    for words in ["make --cards 1 --room 16", "log make"] {
        let called = place.command(words).arg("").output().expect("it runs");
        let (status, told) = (
            called.status.code(),
            String::from_utf8_lossy(&called.stderr),
        );
        assert!(
            status == Some(2) && told.contains(" is empty; usage: lupaniele "),
            "{told}"
        );
    }
    assert_eq!(
        fs::read_dir(&place.folder).expect("the folder").count(),
        0,
        "a file was left"
    );
}

#[test]
fn every_subcommand_has_help() {
    let place = Place::new();
    let all = place.well("--help");
    let names: Vec<&str> = all
        .lines()
        .filter_map(|line| line.strip_prefix("  lupaniele "))
        .collect();
    assert_eq!(names.len(), 13);
    for line in names {
        let name = line[..12].trim();
        let help = place.well(&format!("{name} --help"));
        assert!(
            help.starts_with(&format!("lupaniele {name} ")) && help.lines().count() >= 3,
            "{help}"
        );
        assert!(
            help.lines().all(|line| line.chars().count() <= 100),
            "{help}"
        );
        assert_eq!(place.well(&format!("help {name}")), help);
        assert_eq!(place.well(&format!("{name} -h")), help);
    }
    assert_eq!(place.well("-h"), all);
    assert_eq!(
        place.well("--version"),
        format!("lupaniele {}\n", env!("CARGO_PKG_VERSION"))
    );
}

#[test]
fn files_that_are_none() {
    let place = Place::new();
    fs::create_dir(place.folder.join("folder")).expect("a folder");
    place.write("empty", "");
    place.write("text", "cards 1 room 16\n");
    place.write("list", "shared verify of card 0 by (1.1.0, none)\n");
    let large = File::create(place.folder.join("large")).expect("a file");
    large.set_len(1 << 30).expect("a gigabyte of nothing");
    place.well("make cards --cards 1 --room 16");
    place.well("log make log");
    for (status, words, right) in [
        (
            2,
            "check folder",
            "folder: this is a folder; name an image in it",
        ),
        (2, "play log", "log: this is a log, and a story is due"),
        (
            2,
            "send cards large",
            "large: it has more than 16777216 bytes, the most that a list of commands has",
        ),
        (
            2,
            "play large",
            "large: it has more than 16777216 bytes, the most that a story has",
        ),
        (
            2,
            "compare large text",
            "large: it has more than 65536 bytes, the most that a structured text has",
        ),
        (
            2,
            "make new --from list",
            "list: line 1, column 1: the shape of an image is due, as in `cards 2 room 64`, not `shared`",
        ),
        (
            2,
            "show folder",
            "folder: this is a folder; name an image in it",
        ),
        (
            1,
            "show empty",
            "empty: the file is empty; `lupaniele make` makes an image",
        ),
        (
            1,
            "show text",
            "text: this is the text of an image; `lupaniele make --from` makes the image of it",
        ),
        (
            1,
            "show log",
            "log: this is a log, not an image; `lupaniele log show` shows it",
        ),
        (
            1,
            "log show cards",
            "cards: this is an image, not a log; `lupaniele show` shows it",
        ),
        (
            1,
            "log show empty",
            "empty: the file is empty; `lupaniele log make` makes a log",
        ),
        (
            1,
            "show large",
            "large: it has more than 65536 bytes, the most that an image has (rule 2.2)",
        ),
        (
            1,
            "log show large",
            "large: it has more than 65536 bytes, the most that a log has (rule 11.1)",
        ),
        (
            1,
            "send large text",
            "large: it has more than 65536 bytes, the most that an image has (rule 2.2)",
        ),
        (
            2,
            "send cards folder",
            "folder: this is a folder; name a list of commands in it",
        ),
        (
            2,
            "send cards empty",
            "empty: the file is empty, and a list of commands is due",
        ),
        (
            2,
            "send cards cards",
            "cards: this is an image, and a list of commands is due, a text",
        ),
        (
            2,
            "send cards log",
            "log: this is a log, and a list of commands is due, a text",
        ),
        (
            2,
            "compare empty text",
            "empty: the file is empty, and a structured text is due",
        ),
        (
            2,
            "make new --from cards",
            "cards: this is an image, and the text of an image is due, a text",
        ),
    ] {
        assert_eq!(place.fails(status, words), right, "{words}");
    }
    for (words, right) in [
        (
            "check empty",
            "empty: the file is empty; `lupaniele make` makes an image\n",
        ),
        (
            "check large",
            "large: it has more than 65536 bytes, the most that an image has (rule 2.2)\n",
        ),
        (
            "log check large",
            "large: it has more than 65536 bytes, the most that a log has (rule 11.1)\n",
        ),
        (
            "check text",
            "text: this is the text of an image; `lupaniele make --from` makes the image of it\n",
        ),
    ] {
        let called = place.call(words);
        assert_eq!((called.status, called.out.as_str()), (1, right), "{words}");
    }
}

#[test]
fn texts_of_another_make() {
    let place = Place::new();
    place.well("make cards --cards 1 --room 16");
    for (text, right) in [
        (
            &b"\xef\xbb\xbfshared verify of card 0 by (1.1.0, none)\n"[..],
            "list: line 1, column 1: a byte order mark stands in front: save the file as UTF-8 without one",
        ),
        (
            b"shared verify of card 0 by (1.1.0, none)\r\n",
            "list: line 1, column 41: the line ends with CR LF: save the file with LF alone (Unix line ends)",
        ),
        (
            b"shared\nverify\xff",
            "list: line 2, column 7: byte ff is no UTF-8: save the file as UTF-8, and write other bytes as `\\xff` in quotes",
        ),
        (b"# nothing\n", "list: there is no command in it"),
        (
            b"cards 1 room 60\n",
            "list: line 1, column 1: a command is due, `shared ..` or `exclusive ..`, not `cards`",
        ),
    ] {
        place.write("list", text);
        assert_eq!(place.fails(2, "send cards list"), right);
    }
}

#[test]
fn recovery_is_for_version_1() {
    let place = Place::new();
    place.well("make four --cards 1 --room 16 --version 2");
    place.well("log make log");
    assert_eq!(
        place.fails(1, "log recover log four --desk 1.1"),
        "four: an image of version 2; recovery is for version 1 (rule 15.13)"
    );
}

#[test]
fn who_comes_second_waits() {
    let place = Place::new();
    place.well("make cards --cards 1 --room 16");
    place.write("list", "shared verify of card 0 by (1.1.0, none)\n");
    let held = lupaniele::files::ImageFile::open(place.folder.join("cards")).expect("it is free");
    let told = place.fails(2, "send cards list");
    assert_eq!(
        told,
        "cards: it is in use; try again when the other is done"
    );
    place.well("show cards"); // readers need no lock
    drop(held);
    place.well("send cards list");
    fs::remove_file(place.folder.join("cards.lock")).expect("a lock that is left means nothing");
    fs::create_dir(place.folder.join("cards.lock")).expect("a folder");
    let told = place.fails(2, "send cards list");
    assert!(
        told.starts_with("cards: it cannot be changed here: "),
        "{told}"
    );
}

#[test]
fn a_full_disk_is_told_of() {
    let place = Place::new();
    place.well("make cards --cards 1 --room 16");
    for words in [
        "show cards",
        "explain",
        "--help",
        "check cards",
        "show cards --json",
    ] {
        let full = OpenOptions::new()
            .write(true)
            .open("/dev/full")
            .expect("/dev/full");
        let called = called(
            place
                .command(words)
                .stdout(full)
                .stderr(Stdio::piped())
                .output()
                .expect("it runs"),
        );
        assert_eq!(called.status, 2, "{words}");
        assert!(
            called
                .told
                .starts_with("lupaniele: the output cannot be written: "),
            "{}",
            called.told
        );
    }
    let full = || {
        OpenOptions::new()
            .write(true)
            .open("/dev/full")
            .expect("/dev/full")
    };
    let status = place
        .command("check nothing")
        .stderr(full())
        .stdout(full())
        .status()
        .expect("it runs");
    assert_eq!(status.code(), Some(2));
}

/// Where the output is lost, it is told whether the file is changed.
#[test]
fn a_full_disk_leaves_what_is_saved() {
    let place = Place::new();
    let written = "exclusive write original of card 0 by (1.1.0, 1.1.0) text \"205\"\n";
    place.write("list", written);
    place.write("records", "begin 1\n");
    for (words, right) in [
        (
            "make cards --cards 1 --room 16",
            "cards: made, version 1, 1 card, room 16, 80 bytes\n",
        ),
        ("send cards list", "1 accepted; cards is saved\n"),
        (
            "send cards list --dry-run",
            "No space left on device (os error 28)\n",
        ),
        (
            "log make log",
            "log: made, a log of 8192 bytes with 0 records\n",
        ),
        (
            "log append log records",
            "log: a log of 8192 bytes with 1 record\n",
        ),
    ] {
        let full = OpenOptions::new().write(true).open("/dev/full");
        let mut command = place.command(words);
        command.stdout(full.expect("/dev/full"));
        let called = called(command.stderr(Stdio::piped()).output().expect("it runs"));
        assert_eq!(called.status, 2, "{words}");
        assert!(called.told.ends_with(right), "{}", called.told);
    }
    assert!(place.well("show cards").contains("\"205\""));
}

#[test]
fn a_reader_that_goes_away_is_no_fault() {
    let place = Place::new();
    place.well("make cards --cards 128 --room 208");
    let text = "\\x01".repeat(200); // six letters of JSON each
    let list = (0..128).map(|card| {
        format!("exclusive write original of card {card} by (1.1.0, 1.1.0) text \"{text}\"\n")
    });
    place.write("list", list.collect::<String>());
    place.well("send cards list");
    let more_than_a_pipe_holds = place.well("show cards --json").len();
    assert!(more_than_a_pipe_holds > 100_000, "{more_than_a_pipe_holds}");
    let mut child = place
        .command("show cards --json")
        .stdout(Stdio::piped())
        .stderr(Stdio::piped())
        .spawn()
        .expect("it runs");
    let mut first = [0; 10];
    child
        .stdout
        .take()
        .expect("its output")
        .read_exact(&mut first)
        .expect("it prints");
    let called = called(child.wait_with_output().expect("it ends"));
    assert_eq!((called.status, called.told.as_str()), (0, ""));
}

#[test]
fn damaged_files_are_told_of() {
    let place = Place::new();
    place.well("make cards --cards 2 --room 32");
    place.write(
        "list",
        "exclusive write original of card 0 by (1.1.0, 1.1.0) text \"Drop at 205\"\n",
    );
    place.well("send cards list");
    place.well("log make log --bytes 2300");
    place.write(
        "records",
        "begin 1\nupdate original of card 0 text \"a\"\ncommit 1\n",
    );
    place.well("log append log records");
    let mut random = second::random::Random::new(34);
    for _ in 0..150 {
        for (file, words) in [("cards", "show bad"), ("log", "log show bad")] {
            let mut bytes = place.read(file);
            for _ in 0..random.between(1, 3) {
                let at = random.index(bytes.len().min(400));
                bytes[at] = random.byte();
            }
            let length = random.index(bytes.len() + 1);
            bytes.truncate(if random.one_in(4) {
                length
            } else {
                bytes.len()
            });
            place.write("bad", &bytes);
            let called = place.call(words);
            assert!((0..=1).contains(&called.status), "{called:?}");
            assert_eq!(called.told.is_empty(), called.status == 0, "{called:?}");
        }
    }
}
