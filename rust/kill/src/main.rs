//! Desks as processes on one machine: one image and a log for each desk in files (docs/FILES.md), killed with SIGKILL
//! at random points. `kill test` kills 300 times, `kill run N` N times with a new seed, `kill seed S N` with this one;
//! with FOLDER behind, the files stand there and not in memory. `kill desk` is a desk, which the others start. The
//! first breach stops the run, which says what and where, and leaves the files.

mod desk;
mod judge;
mod rounds;
mod survey;
mod tally;
#[cfg(test)]
mod tests;
mod texts;
mod town;
mod trace;

use std::path::{Path, PathBuf};
use std::process::ExitCode;
use std::time::{Instant, SystemTime, UNIX_EPOCH};

use lupaniele::Version;
use tally::Counted;
use town::Town;

/// The seed and the kills of the gate.
const SEED: u64 = 1;
const KILLS: u64 = 300;

fn main() -> ExitCode {
    let words: Vec<String> = std::env::args().skip(1).collect();
    let words: Vec<&str> = words.iter().map(String::as_str).collect();
    let (seed, kills, folder) = match words[..] {
        ["desk", folder, desks, cards, version, desk, seed] => {
            return a_desk(folder, [desks, cards, version, desk, seed]);
        }
        ["test"] => (Some(SEED), Some(KILLS), None),
        ["run", kills] => (Some(new_seed()), kills.parse().ok(), None),
        ["run", kills, folder] => (Some(new_seed()), kills.parse().ok(), Some(folder)),
        ["seed", seed, kills] => (seed.parse().ok(), kills.parse().ok(), None),
        ["seed", seed, kills, folder] => (seed.parse().ok(), kills.parse().ok(), Some(folder)),
        _ => (None, None, None),
    };
    let folder = folder.map_or_else(town::top, PathBuf::from);
    match seed.zip(kills) {
        Some((seed, kills)) => run(seed, kills, &folder),
        None => {
            eprintln!("usage: kill test | kill run KILLS [FOLDER] | kill seed SEED KILLS [FOLDER]");
            ExitCode::from(2)
        }
    }
}

/// A seed that no earlier run had.
fn new_seed() -> u64 {
    let now = SystemTime::now().duration_since(UNIX_EPOCH);
    now.map_or(0, |since| since.as_nanos() as u64)
}

fn run(seed: u64, kills: u64, folder: &Path) -> ExitCode {
    println!("kill: seed {seed}, {kills} kills");
    let since = Instant::now();
    let tally = match rounds::run(seed, kills, folder) {
        Ok(tally) => tally,
        Err(why) => {
            eprintln!("kill: seed {seed}: a breach\n{why}");
            return ExitCode::FAILURE;
        }
    };
    print!("{}", tally.table());
    let (kills, seconds) = (tally.of(Counted::Kills), since.elapsed().as_secs());
    match &tally.missing()[..] {
        [] => {
            println!("kill: no breach in {kills} kills, {seconds} s");
            ExitCode::SUCCESS
        }
        missing => {
            eprintln!("kill: never came: {}", missing.join("; "));
            ExitCode::FAILURE
        }
    }
}

/// Runs one desk.
fn a_desk(folder: &str, numbers: [&str; 5]) -> ExitCode {
    let numbers = numbers.map(|number| number.parse::<u64>().unwrap_or(0));
    let [desks, cards, version, desk, seed] = numbers;
    let town = Town {
        folder: PathBuf::from(folder),
        desks: desks as u16,
        cards: cards as u16,
        version: if version == 2 {
            Version::Two
        } else {
            Version::One
        },
    };
    match desk::work(&town, desk as u16, seed) {
        Ok(()) => ExitCode::SUCCESS,
        Err(why) => {
            eprintln!("kill: desk {desk}: {why}");
            ExitCode::FAILURE
        }
    }
}
