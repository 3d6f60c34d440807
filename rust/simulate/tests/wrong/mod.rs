//! What is tried with a table of wrong answers: each row has a wrong answer, its
//! words and the check that stops it.

use std::fmt::Debug;

use simulate::checks::Check;
use simulate::library::Library;
use simulate::run::{run, Plan};
use simulate::tally::Tally;

/// The steps within which each must be stopped.
pub const PLAN: Plan = Plan {
    seed: 9,
    steps: 1_000_000,
    first: 1,
    progress: false,
};

/// A library with each wrong answer stops the simulation, at the check that is
/// named, and the last steps are told.
pub fn stopped<M: Copy + Debug, L: Library>(all: &[(M, &str, Check)], library: impl Fn(M) -> L) {
    let mut told = Vec::new();
    for (mutant, _, check) in all {
        let mut tally = Tally::default();
        let stop = run(&mut library(*mutant), &mut tally, PLAN).err();
        match stop {
            Some(stop) if stop.breach.check == *check && !stop.last.is_empty() => {}
            Some(stop) => told.push(format!("{mutant:?}: {:?}", stop.breach)),
            None => told.push(format!("{mutant:?}: nothing")),
        }
    }
    assert!(told.is_empty(), "stopped by another check: {told:#?}");
}

/// `docs/RELIABILITY.md` has a row for each.
pub fn on_the_page<M>(all: &[(M, &str, Check)]) {
    let page = concat!(env!("CARGO_MANIFEST_DIR"), "/../../docs/RELIABILITY.md");
    let page = std::fs::read_to_string(page).unwrap();
    let rows = all
        .iter()
        .map(|(_, words, check)| format!("| {words} | {} |", check.words()));
    let missing: Vec<String> = rows.filter(|row| !page.contains(row)).collect();
    assert!(missing.is_empty(), "missing:\n{}", missing.join("\n"));
}
