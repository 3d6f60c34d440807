//! `compare test` runs a fixed seed and 8,000,000 cases; `compare soak
//! N` runs N cases, 2,000,000 at the least, with a new seed, which it prints.
//! `compare seed S N` runs any seed again. Each prints the coverage table at
//! its end, and fails at the first difference, and where a number or a kind of
//! the table never came. `compare some S N` runs N cases, however few, and asks
//! for no kind: for runs under tools that make it slow. `compare inputs FOLDER
//! N` writes the trials and N random inputs to the program, and what it has to
//! print for each, into a folder.

use std::path::Path;
use std::process::ExitCode;
use std::time::{Instant, SystemTime, UNIX_EPOCH};

use compare::coverage::Run;
use compare::run::Compared;
use compare::{
    answers, conversions, desks, history, images, inputs, languages, lapses, lists, logs, outputs,
    program, proposals, queues, runs, streams, swaps, systems, texts, trials, upgrades,
};
use second::random::Random;
use second::Format;

/// The fixed seed and the cases of `make test`, and its inputs to the program.
const SEED: u64 = 1;
const CASES: u64 = 8_000_000;
const INPUTS: u64 = 10_000;

/// The fewest cases, in which every kind of the table comes.
const LEAST: u64 = 2_000_000;

fn main() -> ExitCode {
    let words: Vec<String> = std::env::args().skip(1).collect();
    let words: Vec<&str> = words.iter().map(String::as_str).collect();
    let few = matches!(words[..], ["some", ..]);
    if let ["inputs", folder, count] = words[..] {
        return written(folder, count.parse().unwrap_or(0));
    }
    let (seed, cases, inputs) = match words[..] {
        ["test"] => (Some(SEED), Some(CASES), INPUTS),
        ["some", seed, cases] => (seed.parse().ok(), cases.parse().ok(), 0),
        ["soak", cases] => (Some(new_seed()), cases.parse().ok(), 0),
        ["seed", seed, cases] => (seed.parse().ok(), cases.parse().ok(), 0),
        _ => (None, None, 0),
    };
    let least = if few { 0 } else { LEAST };
    let Some((seed, cases)) = seed.zip(cases.map(|cases| least.max(cases))) else {
        eprintln!("usage: compare test | compare soak CASES | compare seed SEED CASES | compare some SEED CASES | compare inputs FOLDER COUNT");
        return ExitCode::from(2);
    };
    println!("compare: seed {seed}, {cases} cases");
    let mut run = Run::default();
    match compared(&mut run, seed, cases, inputs.max(cases / 1_000)) {
        Ok(()) if few => {
            println!("compare: no difference in {} cases", run.cases);
            ExitCode::SUCCESS
        }
        Ok(()) => told(&run),
        Err(difference) => {
            eprintln!(
                "compare: seed {seed}, after {} cases: a difference\n{difference}",
                run.cases
            );
            ExitCode::FAILURE
        }
    }
}

/// Writes inputs and outputs.
fn written(folder: &str, count: u64) -> ExitCode {
    match inputs::write(Path::new(folder), count) {
        Ok(()) => ExitCode::SUCCESS,
        Err(why) => {
            eprintln!("compare: {why}");
            ExitCode::FAILURE
        }
    }
}

/// A seed that no earlier run had.
fn new_seed() -> u64 {
    let now = SystemTime::now().duration_since(UNIX_EPOCH);
    now.map_or(0, |since| since.as_nanos() as u64)
}

/// Runs everything.
fn compared(run: &mut Run, seed: u64, cases: u64, inputs: u64) -> Compared<()> {
    let mut random = Random::new(seed);
    let started = Instant::now();
    let mut shown = 5;
    trials::all(run)?;
    for places in (1..=33).cycle() {
        if run.cases >= cases {
            break;
        }
        round(run, &mut random)?;
        queues::chain(run, &mut random, places)?;
        upgrades::course(run, &mut random, places)?;
        if started.elapsed().as_secs() >= shown {
            println!("compare: {} cases, {shown} s", run.cases);
            shown += 5;
        }
    }
    texts::ties(run)?;
    outputs::any(run, &mut random, inputs)?;
    program::any(run, &mut random, inputs)?;
    let seconds = started.elapsed().as_secs();
    println!("compare: {} cases, {seconds} s", run.cases);
    Ok(())
}

/// Some of everything.
fn round(run: &mut Run, random: &mut Random) -> Compared<()> {
    run.format = Format::V2;
    of_version(run, random)?;
    conversions::any(run, random)?;
    run.format = Format::V1;
    of_version(run, random)?;
    queues::any(run, random)?;
    lapses::any(run, random)?;
    desks::any(run, random)?;
    proposals::any(run, random)?;
    texts::any(run, random)?;
    history::any(run, random)?;
    logs::any(run, random)
}

/// Some of everything that there is in both versions.
fn of_version(run: &mut Run, random: &mut Random) -> Compared<()> {
    answers::singles(run, random)?;
    answers::replies(run, random)?;
    answers::malformed(run, random)?;
    images::large(run, random)?;
    images::beyond(run, random)?;
    images::damaged(run, random)?;
    images::making(run, random)?;
    languages::other_version(run, random)?;
    lists::any(run, random)?;
    lists::any(run, random)?;
    systems::any(run, random)?;
    streams::any(run, random)?;
    runs::any(run, random)?;
    swaps::any(run, random)
}

/// Prints the table, and what never came.
fn told(run: &Run) -> ExitCode {
    print!("{}", run.table());
    match &run.missing()[..] {
        [] => {
            println!("compare: no difference in {} cases", run.cases);
            ExitCode::SUCCESS
        }
        missing => {
            eprintln!("compare: never came: {}", missing.join("; "));
            ExitCode::FAILURE
        }
    }
}
