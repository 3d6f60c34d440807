//! The trials a to n, case P and the three slips, on the second program.

mod common;

use common::check;
use second::trials::{self, Second, Tried};
use second::Format;

/// The second program; what every answer must keep is checked as well.
fn checked() -> impl Tried {
    Second {
        answer: check::answer,
        turn: check::turn,
    }
}

#[test]
fn commands_in_every_store() {
    for store in Format::BOTH.into_iter().flat_map(trials::stores) {
        for trial in trials::trials(store.format, store.room) {
            assert_eq!(trials::run(&mut checked(), store, &trial), Ok(()));
        }
    }
}

#[test]
fn m_n_and_p() {
    for format in Format::BOTH {
        assert_eq!(trials::run_making(&mut checked(), format), Ok(()));
    }
    assert_eq!(trials::run_queues(&mut checked()), Ok(()));
    assert_eq!(trials::run_case_p(&mut checked()), Ok(()));
}

/// Each name is one of a trial, but for those of m and n.
#[test]
fn every_trial_is_named() {
    let all = trials::trials(Format::V1, 16);
    let found = |name| all.iter().any(|trial| trial.name == name);
    let left: Vec<&str> = trials::NAMES
        .into_iter()
        .filter(|&name| !found(name))
        .collect();
    assert_eq!(left, ["m", "n"]);
    assert!(all.iter().all(|trial| trials::NAMES.contains(&trial.name)));
}

/// In version 2 each trial comes once for each language, and those of several
/// languages besides.
#[test]
fn every_trial_is_tried_in_every_language() {
    let (first, all) = (
        trials::trials(Format::V1, 16),
        trials::trials(Format::V2, 16),
    );
    for language in 0..4 {
        let of = all.iter().filter(|trial| trial.language == Some(language));
        let names: Vec<&str> = of.map(|trial| trial.name).collect();
        let wanted: Vec<&str> = first.iter().map(|trial| trial.name).collect();
        assert_eq!(names, wanted);
    }
    let several = all.iter().filter(|trial| trial.language.is_none());
    let names: Vec<&str> = several.map(|trial| trial.name).collect();
    assert_eq!(names, trials::LANGUAGE_NAMES);
}
