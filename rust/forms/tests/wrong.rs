//! What cannot be read is told by line, column and word; and damaged text never stops the reader.

use lupaniele::Version;
use second::random::Random;

fn list(text: &str, version: Version) -> forms::Got<usize> {
    let mut count = 0;
    for mut line in forms::lines(text)? {
        forms::read_command(&mut line, version)?;
        line.done()?;
        count += 1;
    }
    Ok(count)
}

/// What is said of a list, an image, a log and a structured text.
fn told(kind: &str, text: &str) -> String {
    let wrong = match kind {
        "list" => list(text, Version::One).err(),
        "image" => forms::read_image(text).err(),
        "log" => forms::read_log(text).err(),
        _ => forms::read_steps(text).err(),
    };
    wrong.map_or_else(|| "read".into(), |wrong| wrong.to_string())
}

#[test]
fn what_is_wrong_is_told_with_its_place() {
    let by = "by (1.1.0, 1.1.0)";
    let cases = [
        (
            "image",
            "",
            "line 1, column 1: an image begins with its shape, as in `cards 2 room 64`",
        ),
        (
            "image",
            "\u{feff}cards 1 room 16",
            "line 1, column 1: a byte order mark stands in front: save the file as UTF-8 without one",
        ),
        (
            "image",
            "cards 1 room 16\r\n",
            "line 1, column 16: the line ends with CR LF: save the file with LF alone (Unix line ends)",
        ),
        (
            "image",
            "cards 1 room 60",
            "line 1, column 14: room 60: a text has room for a multiple of 16 bytes, such as 48 or 64",
        ),
        (
            "image",
            "cards 1 room 8",
            "line 1, column 14: room 8: a text has room for 16 to 1024 bytes, a multiple of 16",
        ),
        (
            "image",
            "cards 0 room 16",
            "line 1, column 7: cards 0: an image has 1 to 128 cards",
        ),
        (
            "image",
            "cards 129 room 16",
            "line 1, column 7: cards 129: with room 16 an image of version 1 has at most 128 cards",
        ),
        (
            "image",
            "cards 32 room 1024",
            "line 1, column 7: cards 32: with room 1024 an image of version 1 has at most 31 cards",
        ),
        (
            "image",
            "cards 1 room",
            "line 1, column 13: the room of a text is due, a number, and the line ends here",
        ),
        (
            "image",
            "cards 1 room 16 version 3",
            "line 1, column 25: the version is at most 2, not `3`",
        ),
        (
            "image",
            "cards 1 room 16\ncard 1",
            "line 2, column 6: card 1: the cards are 0 to 0",
        ),
        (
            "image",
            "cards 2 room 16\ncard 1\ncard 0",
            "line 3, column 1: the cards stand in order, each once",
        ),
        (
            "image",
            "cards 1 room 16\ncard 0\n  pair (1.0.0, none)",
            "line 3, column 3: the stamp 1.0.0 has no desk (rule 1.2)",
        ),
        (
            "image",
            "cards 1 room 16\ncard 0\n  mark (5, 0)",
            "line 3, column 3: the commit mark is half a mark (rule 1.7)",
        ),
        (
            "image",
            "cards 1 room 16\ncard 0\n  mark (5, 7)\n  mark (5, 7)",
            "line 4, column 3: this stands on the card already",
        ),
        (
            "image",
            "cards 1 room 16\ncard 0\n\tmark (5, 7)",
            "line 3, column 1: lines are indented by spaces alone",
        ),
        (
            "image",
            "cards 1 room 16\ncard 0\n  mark (5, 7)\n   pair (none, none)",
            "line 4, column 4: nothing may be indented under the line above",
        ),
        (
            "image",
            "cards 1 room 16\ncard 0\n    mark (5, 7)\n  pair (none, none)",
            "line 4, column 3: the line is indented by 2, the one beside it by 4",
        ),
        (
            "image",
            "  cards 1 room 16",
            "line 1, column 3: the line is indented, and there is none above it to stand under",
        ),
        (
            "image",
            "cards 1 room 16\ncard 0\n  original edition 1 text \"12345678901234567\"",
            "line 3, column 3: the original is longer than the room (rule 2.6)",
        ),
        (
            "list",
            "shred read",
            "line 1, column 1: a command is due, `shared ..` or `exclusive ..`, not `shred`",
        ),
        (
            "list",
            "shared raed",
            "line 1, column 8: an act is due, `read`, `write` or `verify`, not `raed`",
        ),
        (
            "list",
            "shared read orignal",
            "line 1, column 13: `original` or `translation` is due, not `orignal`",
        ),
        (
            "list",
            "shared read original of card x",
            "line 1, column 30: the card is due, a number, not `x`",
        ),
        (
            "list",
            "shared read original of card 65536",
            "line 1, column 30: the card is at most 65535, not `65536`",
        ),
        (
            "list",
            "shared read original of card 0 by (1.1, none)",
            "line 1, column 36: a stamp is due, T.desk.start as in 1.1.0, or `none`, not `1.1`",
        ),
        (
            "list",
            "shared read original of card 0 by (99999999999.1.0, none)",
            "line 1, column 36: in a stamp T is at most 4294967295, desk and start are at most 65535, not `99999999999.1.0`",
        ),
        (
            "list",
            "shared read original of card 0 by (1.1.0 none)",
            "line 1, column 42: `,` is due, not `none`",
        ),
        (
            "list",
            "shared verify of card 0 by (1.1.0, none) now",
            "line 1, column 42: the line's end is due, not `now`",
        ),
        (
            "list",
            "shared verify of card 0 by (1.1.0, none);",
            "line 1, column 41: `;` stands for nothing here",
        ),
        (
            "list",
            "bytes 0g",
            "line 1, column 7: a byte is due, two digits of base 16 as in 0f, not `0g`",
        ),
        (
            "log",
            "",
            "line 1, column 1: a log begins with its length, as in `log of 8192 bytes`",
        ),
        (
            "log",
            "log of 7 bytes",
            "line 1, column 8: a log has 2201 to 65536 bytes",
        ),
        (
            "log",
            "log of 4096 bytes\nbegn 1",
            "line 2, column 1: a record is due, `begin`, `update`, `commit` or `synced`, not `begn`",
        ),
        (
            "log",
            "log of 4096 bytes\nleft at 0 bytes 01",
            "line 2, column 1: what is left would change a record: it stands behind them",
        ),
        (
            "log",
            "log of 4096 bytes\nleft at 4096 bytes 01",
            "line 2, column 1: the log ends at byte 4096",
        ),
        (
            "steps",
            "words \"a\"",
            "line 1, column 1: `steps` is due, not `words`",
        ),
        (
            "steps",
            "steps\n  drop 205.05 C",
            "line 2, column 8: a temperature is due, 0.0 to 6553.5 in tenths of a degree, not `205.05`",
        ),
        (
            "steps",
            "steps\n  drop 6553.6 C",
            "line 2, column 8: a temperature is due, 0.0 to 6553.5 in tenths of a degree, not `6553.6`",
        ),
        (
            "steps",
            "steps\n  drop -5 C",
            "line 2, column 8: a temperature is due, 0.0 to 6553.5 in tenths of a degree, not `-5`",
        ),
        (
            "steps",
            "steps\n  stir",
            "line 2, column 3: a step is due, `words`, `drop` or `section`, not `stir`",
        ),
        (
            "steps",
            "steps\nsteps",
            "line 2, column 1: the text's end is due: its steps are indented under `steps`",
        ),
        (
            "steps",
            "steps (words \"\\x0\")",
            "line 1, column 15: behind `\\x` stand two digits of base 16, as in `\\x0f`",
        ),
        (
            "steps",
            "steps (words \"\\q\")",
            "line 1, column 15: behind `\\` stands `\"`, `\\`, `n` or `x` with two digits",
        ),
    ];
    for (kind, text, right) in cases {
        assert_eq!(told(kind, text), right, "{kind}: {text:?}");
    }
    let short = format!("exclusive write translation of card 0 {by} text \"205\"");
    assert_eq!(
        told("list", &short),
        "line 1, column 57: `edition` is due, not `text`"
    );
    let not_a_text = format!("exclusive write original of card 0 {by} \"205\"");
    assert_eq!(
        told("list", &not_a_text),
        "line 1, column 54: a text is due, `text \"..\"` or `steps (..)`, not a text in quotes"
    );
}

#[test]
fn what_is_no_text_is_told_with_its_place() {
    let wrong = forms::decoded(b"cards 1\nro\xffm").unwrap_err();
    assert_eq!((wrong.line, wrong.column), (2, 3));
    assert!(wrong.told.starts_with("byte ff is no UTF-8"), "{wrong}");
}

#[test]
fn sections_are_as_deep_as_the_rules_say() {
    let deep = |sections: usize| {
        let lines = (1..=sections).map(|depth| format!("{}section\n", "  ".repeat(depth)));
        format!("steps\n{}", lines.collect::<String>())
    };
    assert!(forms::read_steps(&deep(7)).is_ok());
    let wrong = forms::read_steps(&deep(8)).unwrap_err();
    assert_eq!(
        wrong.to_string(),
        "line 9, column 24: at most 8 sections stand within one another"
    );
    let endless = format!("steps {}", "(section ".repeat(100_000));
    assert!(forms::read_steps(&endless).is_err());
    let sloping: String = (0..50_000)
        .map(|depth| format!("{}section\n", " ".repeat(depth.min(400))))
        .collect();
    assert!(forms::read_steps(&sloping).is_err());
}

#[test]
fn indented_steps_are_the_same_as_those_in_brackets() {
    let block = "exclusive write original of card 0 by (1.1.0, 1.1.0) steps\n  words \"Drop at\"\n  section\n    drop 205 C\n";
    let line = "exclusive write original of card 0 by (1.1.0, 1.1.0) steps (words \"Drop at\", section (drop 205.0 C))";
    let read = |text: &str| {
        let mut lines = forms::lines(text).expect("it can be split");
        forms::read_command(&mut lines[0], Version::One).expect("it is a command")
    };
    assert_eq!(read(block), read(line));
    assert_eq!(forms::command(Version::One, &read(block)), line);
}

#[test]
fn damaged_text_is_read_or_told_of() {
    let good = [
        "cards 2 room 64 version 2\ncard 0\n  pair (1.1.0, none)\n  original edition 2 steps\n    words \"Tøm\"\n    section\n      drop 205.0 C\n  translation in language 2 from 1 text \"a\\x0f\"\n",
        "log of 4096 bytes\nbegin 1\nupdate original of card 0 text \"205\"\ncommit 1\nsynced card 0 transaction 1\nleft at 4000 bytes 01 02\n",
        "steps\n  words \"Drop at\"\n  section\n    drop 205.0 C\n",
        "exclusive write translation of card 0 by (1.1.0, 1.1.0) opening (2.1.0, 2.1.0) expected (5, 7) next none edition 1 text \"205\"\nshared verify of card 0 by (none, 1.1.0)\n",
    ];
    let mut random = Random::new(41);
    let (mut read, mut wrong) = (0, 0);
    for round in 0..100_000 {
        let mut signs: Vec<char> = good[round % good.len()].chars().collect();
        for _ in 0..random.between(0, 3) {
            let at = random.index(signs.len().max(1));
            match random.below(4) {
                _ if signs.is_empty() => {}
                0 => signs[at] = char::from(random.byte()),
                1 => drop(signs.remove(at)),
                2 => signs.insert(
                    at,
                    random.pick(&[' ', '\n', '"', '(', '9', '\u{feff}', 'ø', '\\']),
                ),
                _ => signs.truncate(at.max(1)),
            }
        }
        let text: String = signs.into_iter().collect();
        let results = [
            forms::read_image(&text).err(),
            forms::read_log(&text).err(),
            forms::read_steps(&text).err(),
            list(&text, Version::Two).err(),
        ];
        let lines = text.lines().count().max(1);
        for told in results {
            match told {
                None => read += 1,
                Some(told) => {
                    assert!(
                        (1..=lines).contains(&told.line) && told.column > 0,
                        "{told}: {text:?}"
                    );
                    wrong += 1;
                }
            }
        }
    }
    assert!(read > 1_000 && wrong > 100_000, "{read} {wrong}");
}
