//! Towns, one behind the other: desks are started as processes, killed one at a time at random, and started again.

use std::fs;
use std::os::unix::process::ExitStatusExt;
use std::path::Path;
use std::process::{Child, Command};
use std::thread::sleep;
use std::time::{Duration, Instant};

use lupaniele::files::{read_bytes, ImageFile, LogFile};
use lupaniele::{Image, Version, LARGEST_IMAGE};
use second::random::Random;

use crate::desk::finish;
use crate::judge::Judge;
use crate::survey::survey;
use crate::tally::{Counted, Tally};
use crate::town::{waited, Town, ROOM};
use crate::trace::{Reader, Trace};

/// How many kills a town sees at the most, and how many commands about: each sentence of demand 3 is held to the whole
/// list, which takes the square of its length.
const KILLS: u64 = 60;
const COMMANDS: u64 = 5_000;

/// The processes of a town, by desk.
struct Processes {
    town: Town,
    desks: Vec<Option<Child>>,
}

impl Processes {
    fn new(town: &Town) -> Processes {
        Processes {
            town: town.clone(),
            desks: (0..town.desks).map(|_| None).collect(),
        }
    }

    fn start(&mut self, at: usize, seed: u64) -> Result<(), String> {
        let program = std::env::current_exe().map_err(|why| why.to_string())?;
        let town = &self.town;
        let version = town.version as u64;
        let numbers = [
            town.desks.into(),
            town.cards.into(),
            version,
            at as u64 + 1,
            seed,
        ];
        let child = Command::new(program)
            .arg("desk")
            .arg(&self.town.folder)
            .args(numbers.map(|number| number.to_string()))
            .spawn();
        self.desks[at] = Some(child.map_err(|why| format!("no process: {why}"))?);
        Ok(())
    }

    /// Starts those that are down, now and then; one at the least.
    fn start_some(&mut self, random: &mut Random) -> Result<(), String> {
        for at in 0..self.desks.len() {
            if self.desks[at].is_none() && !random.one_in(3) {
                self.start(at, random.number())?;
            }
        }
        match self.running().is_empty() {
            true => self.start(random.index(self.desks.len()), random.number()),
            false => Ok(()),
        }
    }

    fn running(&self) -> Vec<usize> {
        let places = 0..self.desks.len();
        places.filter(|at| self.desks[*at].is_some()).collect()
    }

    /// Kills a desk; whether it was at work.
    fn kill(&mut self, at: usize) -> Result<bool, String> {
        let Some(mut child) = self.desks[at].take() else {
            return Ok(false);
        };
        child.kill().map_err(|why| format!("no kill: {why}"))?;
        let status = child.wait().map_err(|why| why.to_string())?;
        match (status.signal(), status.success()) {
            (Some(9), _) => Ok(true),
            (_, true) => Ok(false),
            _ => Err(format!("desk {} ended with {status}", at + 1)),
        }
    }
}

impl Drop for Processes {
    fn drop(&mut self) {
        for at in 0..self.desks.len() {
            let _ = self.kill(at);
        }
    }
}

/// Runs towns, each in a new folder in this one, until there were so many kills.
pub fn run(seed: u64, kills: u64, top: &Path) -> Result<Tally, String> {
    let mut random = Random::new(seed);
    let (since, mut shown) = (Instant::now(), 0);
    let mut tally = Tally::default();
    while tally.of(Counted::Kills) < kills {
        let (number, left) = (tally.of(Counted::Towns), kills - tally.of(Counted::Kills));
        let folder = top.join(format!("lupaniele-kill-{}-{number}", std::process::id()));
        let town = Town {
            desks: random.between(2, 6) as u16,
            cards: random.between(1, 4) as u16,
            version: if random.one_in(5) {
                Version::Two
            } else {
                Version::One
            },
            folder,
        };
        let wrong = |why: String| format!("{why}\nthe files are in {}", town.folder.display());
        let counts = visit(&town, &mut random, left.min(KILLS)).map_err(wrong)?;
        tally.take_in(&counts);
        fs::remove_dir_all(&town.folder).map_err(|why| why.to_string())?;
        if since.elapsed().as_secs() >= shown {
            let seconds = since.elapsed().as_secs();
            let done = tally.of(Counted::Kills);
            println!("kill: {done} of {kills} kills, {seconds} s");
            shown = seconds + 5;
        }
    }
    Ok(tally)
}

/// The folder of a town with a fresh image and an empty trace.
pub fn founded(town: &Town) -> Result<Reader, String> {
    fs::create_dir_all(&town.folder).map_err(|why| why.to_string())?;
    let fresh = Image::make(town.version, town.cards, ROOM).map_err(|why| why.to_string())?;
    ImageFile::create(town.image(), fresh).map_err(|why| why.to_string())?;
    Trace::open(&town.trace())?;
    Reader::open(&town.trace()).map_err(|why| why.to_string())
}

/// One town from its beginning to its end.
fn visit(town: &Town, random: &mut Random, kills: u64) -> Result<Tally, String> {
    let mut reader = founded(town)?;
    let mut judge = Judge::new(town);
    let mut processes = Processes::new(town);
    judge.tally.count(Counted::Towns);
    let second = u64::from(town.version == Version::Two);
    judge.tally.add(Counted::OfVersion2, second);
    let going =
        |tally: &Tally| tally.of(Counted::Kills) < kills && tally.of(Counted::Commands) < COMMANDS;
    while going(&judge.tally) {
        processes.start_some(random)?;
        let longest = random.pick(&[1_000, 2_500, 2_500, 8_000]);
        sleep(Duration::from_micros(random.below(longest)));
        let running = processes.running();
        if processes.kill(running[random.index(running.len())])? {
            judge.tally.count(Counted::Kills);
        }
        survey(town, &mut judge.tally)?;
        for line in reader.more(false)? {
            judge.hear(line)?;
        }
    }
    for at in processes.running() {
        let killed = processes.kill(at)?;
        judge.tally.add(Counted::Kills, u64::from(killed));
    }
    survey(town, &mut judge.tally)?;
    end(town, judge, reader)
}

/// Everybody is gone: what each log has is finished, and everything is as it is meant.
fn end(town: &Town, mut judge: Judge, mut reader: Reader) -> Result<Tally, String> {
    for desk in 1..=town.desks {
        let path = town.log(desk);
        if path.exists() {
            let file = waited(|| LogFile::open(&path))?;
            finish(town, desk, 0, file)?;
        }
    }
    for line in reader.more(true)? {
        judge.hear(line)?;
    }
    let image = read_bytes(town.image(), LARGEST_IMAGE).map_err(|why| why.to_string())?;
    judge.ended(&image)?;
    judge.keeps_the_sentences()?;
    judge.tally.add(Counted::CutNotes, reader.cut);
    Ok(judge.tally)
}
