//! The subcommands: what each is called with, what it says of itself, and what it does.

use std::ffi::OsString;

use crate::args::{self, Args, Opt, Usage, nearest};
use crate::outcome::{Done, Failed, Outcome};
use crate::{check, compare, convert, explain, log, make, play, send, show};

/// A subcommand.
struct Sub {
    name: &'static str,
    about: &'static str,
    usage: Usage,
    help: &'static str,
    run: fn(&Args) -> Outcome,
}

const fn flag(name: &'static str) -> Opt {
    Opt { name, value: None }
}

const fn with(name: &'static str, value: &'static str) -> Opt {
    let value = Some(value);
    Opt { name, value }
}

static SUBS: [Sub; 13] = [
    Sub {
        name: "make",
        about: "makes an image of fresh cards, or of its text",
        usage: Usage {
            line: "FILE --cards N --room C [--version V] | --from TEXT",
            names: &["FILE"],
            optional: 0,
            options: &[
                with("--cards", "N"),
                with("--room", "C"),
                with("--version", "V"),
                with("--from", "TEXT"),
            ],
        },
        help: "\
Makes FILE, which must not be there yet: an image of N cards (1 to 128) whose texts have room for C
bytes each (16 to 1024, a multiple of 16). Version 1 has one translation of each card; version 2,
with --version 2, has four. With --from the image is made of its text, as `show --text` writes it.",
        run: make::run,
    },
    Sub {
        name: "check",
        about: "says whether an image is sound, or the first rule that it breaks",
        usage: Usage {
            line: "FILE",
            names: &["FILE"],
            optional: 0,
            options: &[],
        },
        help: "\
Says whether FILE is a sound image, of either version; if not, the first rule of docs/RULES.md that
it breaks, with the card and the byte to look at. Exit status 1 where it is not sound.",
        run: check::run,
    },
    Sub {
        name: "show",
        about: "shows the cards of an image: texts, editions, what is behind, marks",
        usage: Usage {
            line: "FILE [--card K] [--json] | --text",
            names: &["FILE"],
            optional: 0,
            options: &[with("--card", "K"), flag("--json"), flag("--text")],
        },
        help: "\
Shows the cards of an image, a line for each text: its edition, whether a translation is current or
by how many editions it is behind, and whose mark the card bears. A long text is cut short and ends
with its length. --card K shows one card whole, with its pair and with structured texts step by
step. --json is for programs. --text is the text of the image, which `make --from` reads.",
        run: show::run,
    },
    Sub {
        name: "send",
        about: "sends the commands of a list to an image, and explains each answer",
        usage: Usage {
            line: "FILE LIST [--dry-run]",
            names: &["FILE", "LIST"],
            optional: 0,
            options: &[flag("--dry-run")],
        },
        help: "\
Sends the commands of LIST (- is standard input), one a line, to the image in FILE, and tells each
answer in words: what was stored against what was sent, and what a desk may do now. The image is
saved whole at the end or not at all; with --dry-run it stays as it is. If a line of LIST cannot be
read, nothing is sent. Exit status 1 where something is refused. A line is one of

  shared read original of card 0 by (2.2.0, 1.1.0)
  shared read translation of card 0 by (2.2.0, 1.1.0)
  exclusive write original of card 0 by (3.1.0, 3.1.0) text \"Drop at 205\"
  exclusive write translation of card 0 by (4.2.0, 4.2.0) edition 1 text \"Tøm ved 205\"
  shared verify of card 0 by (5.2.0, 4.2.0)

`by` names the pair (s, x) that it relies on, stamps as T.desk.start or `none`; behind it may stand
`opening (s, x)`, `expected (desk, transaction)` and `next (desk, transaction)`. A structured text
is `steps (words \"Drop at\", drop 205.0 C)`, or `steps` with its steps indented under the line. In
version 2 it is `translation in language 2`. Behind # stands a comment. docs/FORMS.md has all forms.",
        run: send::run,
    },
    Sub {
        name: "explain",
        about: "says what the number of an answer means, and what to do",
        usage: Usage {
            line: "[NUMBER]",
            names: &["NUMBER"],
            optional: 1,
            options: &[],
        },
        help: "\
Says what a number means, which rule gives it, and what a desk that gets it may do. NUMBER may also
be a name, such as stale. Without one it lists them all.",
        run: explain::run,
    },
    Sub {
        name: "compare",
        about: "says whether two structured texts have the same drops",
        usage: Usage {
            line: "FIRST SECOND | FILE --card K [--language L]",
            names: &["FIRST", "SECOND"],
            optional: 1,
            options: &[with("--card", "K"), with("--language", "L")],
        },
        help: "\
Compares two structured texts step by step: they agree, or it says which step parts and by how many
degrees. FIRST and SECOND are files, with the bytes of a text or its steps in words. With --card K
FILE is an image, and the original and the translation of that card are compared as they stand;
--language L chooses the translation in an image of version 2. Exit status 1 where they differ.",
        run: compare::run,
    },
    Sub {
        name: "convert",
        about: "makes an image of version 2, four languages, out of one of version 1",
        usage: Usage {
            line: "FILE NEW",
            names: &["FILE", "NEW"],
            optional: 0,
            options: &[],
        },
        help: "\
Makes NEW, which must not be there yet: the cards of the image FILE of version 1 as an image of
version 2. The translation becomes language 0. FILE stays as it is.",
        run: convert::run,
    },
    Sub {
        name: "log make",
        about: "makes an empty log, or one of its text",
        usage: Usage {
            line: "LOG [--bytes N | --from TEXT]",
            names: &["LOG"],
            optional: 0,
            options: &[with("--bytes", "N"), with("--from", "TEXT")],
        },
        help: "\
Makes LOG, which must not be there yet: an empty redo log of N bytes (2201 to 65536, else 8192).
With --from it is made of its text, as `log show --text` writes it.",
        run: log::make,
    },
    Sub {
        name: "log check",
        about: "says whether a log is good",
        usage: Usage {
            line: "LOG",
            names: &["LOG"],
            optional: 0,
            options: &[],
        },
        help: "Says whether LOG is a good log (rule 11.6). Exit status 1 where it is not.",
        run: log::check,
    },
    Sub {
        name: "log show",
        about: "shows the records of a log, and what is due",
        usage: Usage {
            line: "LOG [--text]",
            names: &["LOG"],
            optional: 0,
            options: &[flag("--text")],
        },
        help: "\
Shows the records of a log and which updates are due: committed, and not noted as synced. --text is
the text of the log, which `log make --from` reads.",
        run: log::show,
    },
    Sub {
        name: "log append",
        about: "appends the records of a list",
        usage: Usage {
            line: "LOG LIST",
            names: &["LOG", "LIST"],
            optional: 0,
            options: &[],
        },
        help: "\
Appends the records of LIST (- is standard input), one a line, each kept on the disk before the
next. It stops at the first that is refused. A line is one of

  begin 1
  update original of card 0 text \"Drop at 207\"
  update translation of card 0 text \"Tøm ved 207\"
  commit 1
  synced card 0 transaction 1

Behind a record may stand `cut after 9`: the power fails after so many one-byte stores.",
        run: log::append,
    },
    Sub {
        name: "log recover",
        about: "writes what is due in a log to the cards of an image",
        usage: Usage {
            line: "LOG FILE --desk D.S [--marked] [--dry-run]",
            names: &["LOG", "FILE"],
            optional: 0,
            options: &[with("--desk", "D.S"), flag("--marked"), flag("--dry-run")],
        },
        help: "\
Writes each update of LOG that is due to its card in the image FILE (version 1), under pairs that
desk D with the new start S proposes from what is stored, and notes the cards as synced. With
--marked, for logs of desks that keep the rules of transactions, only cards that bear the desk's
mark are written and released; others were finished before. --dry-run changes nothing.",
        run: log::recover,
    },
    Sub {
        name: "play",
        about: "plays a story of desks, logs and power cuts, as text or as a picture",
        usage: Usage {
            line: "LIST [--svg | --text | --input]",
            names: &["LIST"],
            optional: 0,
            options: &[flag("--svg"), flag("--text"), flag("--input")],
        },
        help: "\
Plays the story in LIST (- is standard input) step by step on the store that it begins with, with
each answer in words; --svg draws it; --text writes it as it was read; --input writes it as input
for the program `cards`, if it has commands alone. LIST may be such an input too. docs/STORIES.md
has the lines of a story. Exit status 0 whatever is refused in it: a story is for seeing that.",
        run: play::run,
    },
];

/// What the command was called with is done.
pub fn called(words: &[OsString]) -> Outcome {
    let text = |at: usize| words.get(at).and_then(|word| word.to_str());
    match (text(0), text(1)) {
        (None, _) if words.is_empty() => Err(Failed::unusable(format!(
            "what is to be done?\n\n{}",
            all()
        ))),
        (Some("--help" | "-h"), _) | (Some("help"), None) => Done::well(all()),
        (Some("--version" | "-V"), _) => {
            Done::well(format!("lupaniele {}\n", env!("CARGO_PKG_VERSION")))
        }
        (Some("help"), _) => {
            let (sub, _) = found(&words[1..])?;
            Done::well(of(sub))
        }
        (Some("log"), Some("--help" | "-h")) => Done::well(all()),
        _ => {
            let (sub, rest) = found(words)?;
            let asks = |word: &&OsString| matches!(word.to_str(), Some("--help" | "-h"));
            if rest
                .iter()
                .take_while(|word| *word != "--")
                .any(|word| asks(&word))
            {
                return Done::well(of(sub));
            }
            let read = args::read(&sub.usage, rest);
            let told = |told: String| {
                let (name, stop) = (sub.name, if told.ends_with('?') { "" } else { ";" });
                Failed::unusable(format!("{name}: {told}{stop} usage: {}", usage(sub)))
            };
            (sub.run)(&read.map_err(told)?)
        }
    }
}

/// The subcommand that words begin with, and the words behind it.
fn found(words: &[OsString]) -> Result<(&'static Sub, &[OsString]), Failed> {
    let named = |sub: &&Sub| {
        let names = sub.name.split(' ');
        let count = names.clone().count();
        words.len() >= count && names.zip(words).all(|(name, word)| word == name)
    };
    if let Some(sub) = SUBS.iter().find(named) {
        return Ok((sub, &words[sub.name.split(' ').count()..]));
    }
    let word = |at: usize| {
        words
            .get(at)
            .map(|word| word.to_string_lossy().into_owned())
    };
    let first = word(0).unwrap_or_default();
    let called = match (first.as_str(), word(1)) {
        ("log", Some(second)) => format!("log {second}"),
        _ => first,
    };
    let of_log = |name: &&str| called != "log" || name.starts_with("log ");
    let names: Vec<&str> = SUBS.iter().map(|sub| sub.name).filter(of_log).collect();
    Err(Failed::unusable(match nearest(&called, &names) {
        Some(near) => format!("there is no `lupaniele {called}`; did you mean `{near}`?"),
        None => format!(
            "there is no `lupaniele {called}`; there is {}",
            names.join(", ")
        ),
    }))
}

/// One line of usage.
fn usage(sub: &Sub) -> String {
    format!("lupaniele {} {}", sub.name, sub.usage.line)
}

fn of(sub: &Sub) -> String {
    format!("{}\n\n{}\n", usage(sub), sub.help)
}

fn all() -> String {
    let mut out = String::from(
        "lupaniele: looks at images and logs of the card store, changes them, and says why not\n\n",
    );
    for sub in &SUBS {
        out += &format!("  lupaniele {:12} {}\n", sub.name, sub.about);
    }
    out + "\n`lupaniele NAME --help` says more of each; docs/TOUR.md leads through them. Exit status: 0 all is\n\
           accepted, sound or the same; 1 something is refused, unsound or different; 2 a wrong use, or a\n\
           file that cannot be read or written.\n"
}

#[cfg(test)]
mod tests {
    use super::*;

    /// The line of each has its names and its options.
    #[test]
    fn the_usage_has_every_option() {
        for sub in &SUBS {
            let Usage { line, names, .. } = &sub.usage;
            for name in *names {
                assert!(line.contains(name), "{}: {name}", sub.name);
            }
            for option in sub.usage.options {
                let words = option.value.map_or(option.name.into(), |value| {
                    format!("{} {value}", option.name)
                });
                assert!(line.contains(&words), "{}: {words}", sub.name);
            }
            assert_eq!(
                line.matches("--").count(),
                sub.usage.options.len(),
                "{}",
                sub.name
            );
        }
    }

    /// The page of the command has each, and no other.
    #[test]
    fn the_page_has_every_line() {
        let page = concat!(env!("CARGO_MANIFEST_DIR"), "/../../docs/lupaniele.1");
        let page = std::fs::read_to_string(page).expect("the page");
        let page = page
            .replace("\\fI", "")
            .replace("\\fP", "")
            .replace("\\-", "-");
        let synopsis = page.lines().take_while(|line| *line != ".fi");
        let lines = synopsis.filter_map(|line| line.strip_prefix(".B "));
        let lines: Vec<&str> = lines
            .filter(|line| line.starts_with("lupaniele "))
            .collect();
        assert_eq!(lines, SUBS.each_ref().map(usage));
    }
}
