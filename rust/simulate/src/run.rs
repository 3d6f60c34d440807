//! A run: town after town from one seed, then towns in which one rule is
//! broken, and the tables.

use std::collections::BTreeMap;
use std::io::Write;
use std::time::Instant;

use second::random::Random;
use story::picture::{self, Picture};
use story::Scene;

use crate::checks::Breach;
use crate::library::Library;
use crate::rule::Rule;
use crate::tally::{grouped, Tally};
use crate::town::{Outcome, Shape, Town};

/// Towns with a broken rule, and what broke in them.
#[derive(Clone, Copy, Debug, Default, PartialEq, Eq)]
pub struct Broken {
    /// How many towns.
    pub towns: u64,
    /// In how many the premise broke.
    pub premise: u64,
    /// In how many a session was broken.
    pub isolation: u64,
    /// In how many the store was not the one in which a commit is one step.
    pub halved: u64,
}

impl Broken {
    /// In how many towns broke what the rule is for.
    pub fn broken(&self, rule: Rule) -> u64 {
        match rule.of_transactions() {
            true => self.halved,
            false => self.premise,
        }
    }
}

/// The seed of a town of a run.
pub fn town_seed(seed: u64, town: u64) -> u64 {
    Random::new(seed ^ town.wrapping_mul(0x9e37_79b9_7f4a_7c15)).number()
}

/// The shape of a town of a run: the first has a card that is worn out, and one
/// in ten is large.
fn shape(seed: u64, town: u64) -> Shape {
    match town {
        0 => Shape::worn(),
        _ if town % 10 == 5 => Shape::large(&mut Random::new(seed)),
        _ => Shape::any(&mut Random::new(seed)),
    }
}

/// Where a run stopped.
#[derive(Clone, Debug)]
pub struct Stop {
    /// The town.
    pub town: u64,
    /// Its step.
    pub step: u64,
    /// The check, and what was seen.
    pub breach: Breach,
    /// The last steps, in words.
    pub last: Vec<String>,
}

/// What a run is to do.
#[derive(Clone, Copy, Debug, PartialEq, Eq)]
pub struct Plan {
    /// The seed.
    pub seed: u64,
    /// The least number of steps.
    pub steps: u64,
    /// The first town: town 0 wears out a card.
    pub first: u64,
    /// Whether it says how far it is.
    pub progress: bool,
}

/// Runs towns until so many steps are made, or up to the first breach.
pub fn run<L: Library>(library: &mut L, tally: &mut Tally, plan: Plan) -> Result<(), Box<Stop>> {
    let started = Instant::now();
    let mut shown = 5;
    let mut town = plan.first;
    while tally.steps < plan.steps {
        one(library, tally, plan.seed, town)?;
        town += 1;
        let seconds = started.elapsed().as_secs();
        if plan.progress && seconds >= shown {
            let (steps, rate) = (grouped(tally.steps), grouped(tally.steps / seconds));
            let mut to = std::io::stderr();
            let _ = writeln!(
                to,
                "simulate: {steps} steps, {seconds} s, {rate} steps a second"
            );
            shown = seconds + 5;
        }
    }
    Ok(())
}

/// How often each thing became of what guests did.
pub type Outcomes = [u64; Outcome::ALL.len()];

/// Runs towns with guests, desks of the crate `lupaniele`, until so many steps
/// are made, or up to the first breach.
pub fn guests<L: Library>(
    library: &mut L,
    tally: &mut Tally,
    seed: u64,
    steps: u64,
) -> Result<Outcomes, Box<Stop>> {
    let (mut all, mut town) = (Outcomes::default(), 0);
    while tally.steps < steps {
        let own = town_seed(seed ^ 0x6e57, town);
        let mut random = Random::new(own);
        let shape = Shape {
            guests: random.pick(&[1, 2, 3]),
            ..Shape::any(&mut random)
        };
        let outcomes = in_town(library, tally, own, shape, town)?;
        all.iter_mut()
            .zip(outcomes)
            .for_each(|(all, count)| *all += count);
        town += 1;
    }
    Ok(all)
}

/// Runs one town of a run.
fn one<L: Library>(
    library: &mut L,
    tally: &mut Tally,
    seed: u64,
    town: u64,
) -> Result<(), Box<Stop>> {
    let own = town_seed(seed, town);
    in_town(library, tally, own, shape(own, town), town).map(|_| ())
}

/// Runs one town; after a breach it is run again, for its last steps in words.
fn in_town<L: Library>(
    library: &mut L,
    tally: &mut Tally,
    own: u64,
    shape: Shape,
    town: u64,
) -> Result<Outcomes, Box<Stop>> {
    let ran = Town::new(library, tally, own, shape, None)
        .and_then(|mut town| town.run().map(|()| town.outcomes));
    let breach = match ran {
        Ok(outcomes) => return Ok(outcomes),
        Err(breach) => breach,
    };
    let mut again = Tally::default();
    let mut last = Vec::new();
    let mut step = 0;
    if let Ok(mut town) = Town::new(library, &mut again, own, shape, None) {
        town.scenes = Some(Vec::new());
        let _ = town.run();
        step = town.steps();
        last = last_words(&town.scenes.take().unwrap_or_default());
    }
    Err(Box::new(Stop {
        town,
        step,
        breach,
        last,
    }))
}

/// A town in which a rule is broken: a small one.
fn broken_town(seed: u64, rule: Rule, number: u64) -> (u64, Shape) {
    let seed = town_seed(seed ^ 0xb0b0, number << 8 | rule as u64);
    let mut random = Random::new(seed);
    let transacting = rule.of_transactions();
    let any = Shape::any(&mut random);
    let shape = Shape {
        steps: if transacting { 1_000 } else { 400 },
        desks: random.pick(&[2, 3, 4]),
        cards: random.pick(&[1, 2]),
        polite: false,
        transacting,
        managers: if transacting { 1 } else { any.managers },
        ..any
    };
    (seed, shape)
}

/// How many towns with a broken rule there are at least, and at most, until
/// what the rule is for broke in three of them.
const LEAST: u64 = 100;
const MOST: u64 = 30_000;
const MOST_OF_TRANSACTIONS: u64 = 3_000;

/// Runs towns in which a rule is broken. Every check but the premise and
/// isolation outright holds there too, and isolation while the premise holds;
/// of a rule on transactions, every check but those of the store in which a
/// commit is one step.
pub fn broken<L: Library>(library: &mut L, seed: u64, rule: Rule) -> Result<Broken, Breach> {
    let most = match rule.of_transactions() {
        true => MOST_OF_TRANSACTIONS,
        false => MOST,
    };
    let mut broken = Broken::default();
    while broken.towns < LEAST || broken.broken(rule) < 3 && broken.towns < most {
        let (seed, shape) = broken_town(seed, rule, broken.towns);
        let mut tally = Tally::default();
        let mut town = Town::new(library, &mut tally, seed, shape, Some(rule))?;
        town.run()?;
        let [premise, isolation] = town.broken();
        broken.towns += 1;
        broken.premise += u64::from(premise);
        broken.isolation += u64::from(isolation);
        broken.halved += u64::from(town.halved().is_some());
    }
    Ok(broken)
}

/// The first town in which a broken rule breaks the premise, up to there, in
/// words.
pub fn told<L: Library>(library: &mut L, seed: u64, rule: Rule) -> Option<Stop> {
    for number in 0..MOST {
        let (seed, shape) = broken_town(seed, rule, number);
        let mut tally = Tally::default();
        let mut town = Town::new(library, &mut tally, seed, shape, Some(rule)).ok()?;
        town.scenes = Some(Vec::new());
        town.strict();
        if let Err(breach) = town.run() {
            return Some(Stop {
                town: number,
                step: town.steps(),
                breach,
                last: last_words(&town.scenes.take().unwrap_or_default()),
            });
        }
    }
    None
}

/// The last scenes, in words.
fn last_words(scenes: &[Scene]) -> Vec<String> {
    let from = scenes.len().saturating_sub(20);
    scenes[from..].iter().map(Scene::to_string).collect()
}

/// A picture of a small town.
pub fn drawn<L: Library>(library: &mut L, seed: u64) -> Result<String, Breach> {
    let mut tally = Tally::default();
    let mut town = Town::new(library, &mut tally, seed, Shape::small(), None)?;
    let opening = town.standings();
    town.scenes = Some(Vec::new());
    town.run()?;
    Ok(picture::draw(&Picture {
        title: &format!("A town of three desks, seed {seed}"),
        names: &BTreeMap::new(),
        opening: &opening,
        scenes: &town.scenes.take().unwrap_or_default(),
    }))
}
