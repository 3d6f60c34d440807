//! The trials on both, and demand 3 on their lists.

use second::short::Kept;
use second::trials::{self, Told, Trial, Tried, LANGUAGE_NAMES, NAMES};
use second::{Format, Turn};

use crate::coverage::{Kind, Run};
use crate::demand3::{self, Event};
use crate::program::Program;
use crate::run::Compared;
use crate::{answers, images, lists, queues};

/// Both, and the events of the list that is being sent.
struct Both<'a> {
    run: &'a mut Run,
    program: &'a Program,
    events: Vec<Event>,
}

impl Tried for Both<'_> {
    fn make(&mut self, format: Format, image: &mut [u8], cards: u64, room: u64) -> Compared<u8> {
        self.run.format = format;
        images::make(self.run, image, cards, room)
    }

    fn answer(
        &mut self,
        format: Format,
        image: &mut [u8],
        command: &[u8],
        reply: &mut [u8],
    ) -> Compared<Told<7>> {
        self.run.format = format;
        let lent = reply.to_vec();
        let told = answers::answer(self.run, image, command, reply)?;
        self.events
            .push(Event::new(format, command, lent, told, reply));
        Ok((told.number, told.fields))
    }

    fn turn(&mut self, queue: &mut Kept, turn: Turn) -> Compared<Told<4>> {
        queues::turn(self.run, queue, turn)
    }

    fn output(&mut self, input: &[u8]) -> Compared<String> {
        self.program.output(self.run, input)
    }
}

/// Every trial on both, with demand 3 on each list that starts from a fresh
/// image.
pub fn all(run: &mut Run) -> Compared<()> {
    let program = Program::new(0);
    for store in Format::BOTH.into_iter().rev().flat_map(trials::stores) {
        for trial in trials::trials(store.format, store.room) {
            let events = on_both(run, &program, |both| trials::run(both, store, &trial))?;
            seen(run, &trial);
            if trial.stored.is_none() {
                lists::sentences(run, store.cards as u16, &events)?;
                let premise = demand3::premise(&events, store.card);
                if premise != trial.premise {
                    return Err(format!("trial {}: the premise is {premise}", trial.name));
                }
            }
        }
    }
    for format in Format::BOTH.into_iter().rev() {
        on_both(run, &program, |both| trials::run_making(both, format))?;
    }
    named(run, "m");
    on_both(run, &program, |both| trials::run_queues(both))?;
    named(run, "n");
    on_both(run, &program, |both| trials::run_case_p(both))?;
    Ok(())
}

/// Runs something on both, and gives the events.
fn on_both(
    run: &mut Run,
    program: &Program,
    trial: impl FnOnce(&mut Both) -> Compared<()>,
) -> Compared<Vec<Event>> {
    let mut both = Both {
        run,
        program,
        events: Vec::new(),
    };
    trial(&mut both)?;
    Ok(both.events)
}

/// Counts a trial by its name, in version 2 by its language.
fn seen(run: &mut Run, trial: &Trial) {
    match (run.format, trial.language) {
        (Format::V1, _) => named(run, trial.name),
        (Format::V2, Some(language)) => run.seen_at(Kind::TrialsAgain, language.into()),
        (Format::V2, None) => {
            let mut names = LANGUAGE_NAMES.iter();
            let at = names.position(|other| *other == trial.name);
            at.into_iter()
                .for_each(|at| run.seen_at(Kind::TrialsOfLanguages, at));
        }
    }
}

/// Counts a trial of version 1 by its name.
fn named(run: &mut Run, name: &str) {
    let at = NAMES.iter().position(|other| *other == name);
    at.into_iter().for_each(|at| run.seen_at(Kind::Trials, at));
}
