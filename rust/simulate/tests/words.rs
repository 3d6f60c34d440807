//! What `simulate` is asked for: help, words that it does not know, numbers that are too small, and an output that
//! cannot be written.

use std::fs::OpenOptions;
use std::process::{Command, Output, Stdio};

fn simulate(words: &[&str]) -> Command {
    let mut command = Command::new(env!("CARGO_BIN_EXE_simulate"));
    command.args(words).stdin(Stdio::null());
    command
}

fn ran(words: &[&str]) -> (Option<i32>, String, String) {
    let Output {
        status,
        stdout,
        stderr,
    } = simulate(words).output().unwrap();
    let text = |bytes: Vec<u8>| String::from_utf8(bytes).unwrap();
    (status.code(), text(stdout), text(stderr))
}

#[test]
fn help_is_told() {
    for words in [&["-h"][..], &["--help"], &["seed", "--help"]] {
        let (code, out, err) = ran(words);
        assert_eq!((code, &err[..]), (Some(0), ""), "{words:?}");
        assert!(out.starts_with("usage: simulate test"), "{out}");
    }
}

#[test]
fn what_it_does_not_know_is_refused() {
    for (words, told) in [
        (&[][..], "say what to run"),
        (&["sed", "5"], "`sed` is no word"),
        (&["seed", "5"], "`seed` takes other words"),
        (&["seed", "5", "10"], "1,000,000 are the least"),
        (&["soak", "999_999"], "1,000,000 are the least"),
        (&["seed", "five", "1000000"], "`five` is no number"),
        (&["test", "now"], "`test` takes other words"),
        (&["broken", "Nothing", "1"], "`Nothing` is no rule"),
        (&["--picture", "x"], "`x` is no number"),
    ] {
        let (code, out, err) = ran(words);
        assert_eq!((code, &out[..]), (Some(2), ""), "{words:?}");
        assert!(err.contains(told), "{words:?}: {err}");
    }
}

#[test]
fn a_picture_of_a_town() {
    let (code, out, err) = ran(&["--picture", "12"]);
    assert_eq!((code, &err[..]), (Some(0), ""));
    assert!(out.starts_with("<svg") && out.ends_with("</svg>\n"));
}

#[test]
fn an_output_that_cannot_be_written_is_told() {
    for words in [
        &["--picture", "12"][..],
        &["--help"],
        &["broken", "KeptX", "1"],
    ] {
        let full = OpenOptions::new().write(true).open("/dev/full").unwrap();
        let ran = simulate(words).stdout(full).output().unwrap();
        let err = String::from_utf8(ran.stderr).unwrap();
        assert_eq!(ran.status.code(), Some(2), "{words:?}: {err}");
        assert!(
            err.contains("standard output") && !err.contains("panicked"),
            "{err}"
        );
    }
}
