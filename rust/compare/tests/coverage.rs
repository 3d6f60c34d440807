//! The coverage table sees what never came.

use compare::coverage::{Kind, Run, GIVEN, GIVEN_BY_VERSION_2};
use second::Format;

/// How many of what never came is said of this text.
fn missing(run: &Run, text: &str) -> usize {
    let missing = run.missing();
    missing.iter().filter(|line| line.contains(text)).count()
}

#[test]
fn nothing_came() {
    let run = Run::default();
    assert_eq!(
        missing(&run, ": number "),
        GIVEN.len() + GIVEN_BY_VERSION_2.len()
    );
    assert_eq!(missing(&run, "fresh images made"), 2 + 2);
    assert_eq!(missing(&run, "one byte before the payload"), 52 + 68);
    assert_eq!(missing(&run, "version 1: \"conversions"), 0);
    assert_eq!(missing(&run, "version 2: \"conversions"), 3);
}

#[test]
fn some_came() {
    let (mut run, mut other) = (Run::default(), Run::default());
    run.number(7);
    run.seen_at(Kind::Made, 1);
    other.number(7);
    (0..52).for_each(|at| other.seen_at(Kind::CommandBytes, at));
    run.add(&other);
    assert_eq!(run.cases, 2);
    assert_eq!(missing(&run, "version 1: number "), GIVEN.len() - 1);
    assert_eq!(
        missing(&run, "version 2: number "),
        GIVEN_BY_VERSION_2.len()
    );
    assert_eq!(missing(&run, "fresh images made"), 1 + 2);
    assert_eq!(missing(&run, "one byte before the payload"), 68);
    let table = run.table();
    assert!(table.contains("1  fresh images made, refused with 14: 0, 1\n"));
    assert!(table.contains(
        "52  commands refused with 1 or 2 by one byte before the payload: each of 52, 1 times or more\n"
    ));
    assert!(table.contains("2  answered 7\n"));
}

/// What is counted in one version does not count in the other.
#[test]
fn each_version_by_itself() {
    let mut run = Run::default();
    run.format = Format::V2;
    run.number(7);
    run.seen_at(Kind::Made, 1);
    run.seen_at(Kind::CommandBytes, 67);
    assert_eq!(missing(&run, "version 1: number 7"), 1);
    assert_eq!(missing(&run, "version 2: number 7"), 0);
    assert_eq!(missing(&run, "version 1: \"fresh images made"), 2);
    assert_eq!(missing(&run, "version 2: \"fresh images made"), 1);
    assert_eq!(
        missing(
            &run,
            "version 2: \"commands refused with 1 or 2 by one byte"
        ),
        67
    );
    let table = run.table();
    let (_, second) = table.split_once("version 2:\n").expect("two parts");
    assert!(second.contains("1  fresh images made, refused with 14: 0, 1\n"));
}
