//! A town of desks over the proved library; `simulate --help` says what there is.

use std::fmt::Display;
use std::io::Write;
use std::process::{exit, ExitCode};
use std::time::{Instant, SystemTime, UNIX_EPOCH};

use simulate::library::Proved;
use simulate::rule::Rule;
use simulate::run::{broken, drawn, guests, run, told, Plan, Stop};
use simulate::tally::{grouped, Tally};
use simulate::town::Outcome;

/// The fixed seed, and the fewest steps, in which everything comes.
const SEED: u64 = 1;
const LEAST: u64 = 1_000_000;

/// The steps of towns with desks of the crate `lupaniele`.
const GUEST_STEPS: u64 = 300_000;

/// What there is to ask for.
const USAGE: &str = "\
usage: simulate test               a fixed seed, 1,000,000 steps
       simulate soak STEPS         a new seed, which is printed; 1,000,000 steps at the least
       simulate seed SEED STEPS    any seed again
       simulate some SEED STEPS    as few steps as one likes, and nothing asked but that there is no breach
       simulate broken RULE SEED   a town in which a rule is broken, up to where what it is for breaks
       simulate --picture SEED     a small town as a picture, SVG

Each of the first three then runs towns in which one rule is broken and towns with desks of the
crate `lupaniele`, prints what came how often, and fails (1) at the first breach and where something
never came. Wrong use is 2.
";

/// What was asked for.
enum Asked {
    Help,
    Run(u64, u64),
    Some(u64, u64),
    Broken(Rule, u64),
    Picture(u64),
}

/// A line to standard output; where that cannot be written, the program ends.
fn say(line: impl Display) {
    put(&format!("{line}\n"));
}

fn put(text: &str) {
    let mut to = std::io::stdout();
    if let Err(why) = to.write_all(text.as_bytes()).and_then(|()| to.flush()) {
        complain(format!("standard output: {why}"));
        exit(2);
    }
}

/// A line to standard error, if somebody listens.
fn complain(line: impl Display) {
    let _ = writeln!(std::io::stderr(), "simulate: {line}");
}

/// A number of a word; digits may be grouped.
fn number(word: &str) -> Result<u64, String> {
    let digits = word.replace(['_', ','], "");
    digits.parse().map_err(|_| format!("`{word}` is no number"))
}

/// A number of steps in which everything can come.
fn steps(word: &str) -> Result<u64, String> {
    match number(word)? {
        steps if steps < LEAST => Err(format!(
            "{word} steps are too few for everything to come: {} are the least",
            grouped(LEAST)
        )),
        steps => Ok(steps),
    }
}

fn rule(word: &str) -> Result<Rule, String> {
    let all = Rule::ALL
        .iter()
        .map(|rule| format!("\n  {rule:?}: {}", rule.words()));
    Rule::named(word).ok_or_else(|| {
        let all: String = all.collect();
        format!("`{word}` is no rule that can be broken; these are:{all}")
    })
}

/// What the words ask for, or why they ask for nothing.
fn asked(words: &[&str]) -> Result<Asked, String> {
    match words {
        [.., "-h" | "--help"] => Ok(Asked::Help),
        ["test"] => Ok(Asked::Run(SEED, LEAST)),
        ["soak", most] => Ok(Asked::Run(new_seed(), steps(most)?)),
        ["seed", seed, most] => Ok(Asked::Run(number(seed)?, steps(most)?)),
        ["some", seed, most] => Ok(Asked::Some(number(seed)?, number(most)?)),
        ["broken", name, seed] => Ok(Asked::Broken(rule(name)?, number(seed)?)),
        ["--picture", seed] => Ok(Asked::Picture(number(seed)?)),
        [] => Err("say what to run".into()),
        [first @ ("test" | "soak" | "seed" | "some" | "broken" | "--picture"), ..] => {
            Err(format!("`{first}` takes other words than these"))
        }
        [first, ..] => Err(format!("`{first}` is no word of simulate's")),
    }
}

fn main() -> ExitCode {
    let words: Vec<String> = std::env::args().skip(1).collect();
    let words: Vec<&str> = words.iter().map(String::as_str).collect();
    match asked(&words) {
        Ok(Asked::Help) => {
            put(USAGE);
            ExitCode::SUCCESS
        }
        Ok(Asked::Run(seed, steps)) => simulated(seed, steps),
        Ok(Asked::Some(seed, steps)) => some(seed, steps),
        Ok(Asked::Broken(rule, seed)) => tell(rule, seed),
        Ok(Asked::Picture(seed)) => draw(seed),
        Err(why) => {
            complain(why);
            let _ = write!(std::io::stderr(), "{USAGE}");
            ExitCode::from(2)
        }
    }
}

/// A seed that no earlier run had.
fn new_seed() -> u64 {
    let now = SystemTime::now().duration_since(UNIX_EPOCH);
    now.map_or(0, |since| since.as_nanos() as u64)
}

/// Carries out a plan, and says where it was stopped.
fn ran(plan: Plan) -> Option<Tally> {
    let mut tally = Tally::default();
    if let Err(stop) = run(&mut Proved, &mut tally, plan) {
        say(format!("simulate: seed {}, a breach", plan.seed));
        stopped(&stop);
        return None;
    }
    Some(tally)
}

/// Runs some steps: for tools that make it slow.
fn some(seed: u64, steps: u64) -> ExitCode {
    let plan = Plan {
        seed,
        steps,
        first: 1,
        progress: false,
    };
    let Some(tally) = ran(plan) else {
        return ExitCode::FAILURE;
    };
    let steps = grouped(tally.steps);
    say(format!("simulate: no breach in {steps} steps, seed {seed}"));
    ExitCode::SUCCESS
}

/// Runs everything, and prints the tables.
fn simulated(seed: u64, steps: u64) -> ExitCode {
    say(format!("simulate: seed {seed}, {} steps", grouped(steps)));
    let started = Instant::now();
    let plan = Plan {
        seed,
        steps,
        first: 0,
        progress: true,
    };
    let Some(tally) = ran(plan) else {
        return ExitCode::FAILURE;
    };
    let seconds = started.elapsed().as_secs_f64();
    put(&tally.table());
    let rate = grouped((tally.steps as f64 / seconds) as u64);
    let (towns, steps) = (grouped(tally.towns), grouped(tally.steps));
    say(format!(
        "simulate: {steps} steps in {towns} towns, {seconds:.1} s, {rate} steps a second"
    ));
    if !rules(seed) || !visited(seed) {
        return ExitCode::FAILURE;
    }
    match &tally.missing()[..] {
        [] => {
            say(format!("simulate: no breach in {steps} steps, seed {seed}"));
            ExitCode::SUCCESS
        }
        missing => {
            say(format!("simulate: never came: {}", missing.join("; ")));
            ExitCode::FAILURE
        }
    }
}

/// Towns with desks of the crate `lupaniele`: whether there is no breach, and
/// everything came.
fn visited(seed: u64) -> bool {
    let mut tally = Tally::default();
    match guests(&mut Proved, &mut tally, seed, GUEST_STEPS) {
        Ok(outcomes) => {
            let steps = grouped(tally.steps);
            say(format!("desks of the crate `lupaniele`, in {steps} steps:"));
            for (outcome, count) in Outcome::ALL.iter().zip(outcomes) {
                say(format!("{:>12}  {}", grouped(count), outcome.words()));
            }
            !outcomes.contains(&0)
        }
        Err(stop) => {
            say(format!(
                "simulate: seed {seed}, a breach in a town with desks of the crate"
            ));
            stopped(&stop);
            false
        }
    }
}

/// Towns with a broken rule: whether in each broke somewhere what the rule is
/// for, and nothing else did.
fn rules(seed: u64) -> bool {
    say("one rule broken: towns, premise broken, session broken, commit in halves");
    let broke: Vec<bool> = Rule::ALL
        .iter()
        .map(|rule| match broken(&mut Proved, seed, *rule) {
            Ok(told) => {
                let (towns, premise, isolation) = (told.towns, told.premise, told.isolation);
                let halved = told.halved;
                say(format!(
                    "{towns:>8} {premise:>6} {isolation:>6} {halved:>6}  {}",
                    rule.words()
                ));
                told.broken(*rule) > 0
            }
            Err(breach) => {
                say(format!(
                    "simulate: {rule:?}: {}: {}",
                    breach.check.words(),
                    breach.told
                ));
                false
            }
        })
        .collect();
    broke.iter().all(|broke| *broke)
}

/// Where a run stopped, and the last steps.
fn stopped(stop: &Stop) {
    for line in &stop.last {
        say(format!("  {line}"));
    }
    let (check, told) = (stop.breach.check.words(), &stop.breach.told);
    say(format!(
        "town {}, step {}: {check}\n  {told}",
        stop.town, stop.step
    ));
}

/// Tells what a rule is for.
fn tell(rule: Rule, seed: u64) -> ExitCode {
    say(format!(
        "simulate: seed {seed}, with one rule broken: {}",
        rule.words()
    ));
    match told(&mut Proved, seed, rule) {
        Some(stop) => {
            stopped(&stop);
            ExitCode::SUCCESS
        }
        None => {
            say("simulate: nothing broke");
            ExitCode::FAILURE
        }
    }
}

/// Draws a small town.
fn draw(seed: u64) -> ExitCode {
    match drawn(&mut Proved, seed) {
        Ok(picture) => {
            put(&picture);
            ExitCode::SUCCESS
        }
        Err(breach) => {
            complain(format!("{}: {}", breach.check.words(), breach.told));
            ExitCode::FAILURE
        }
    }
}
