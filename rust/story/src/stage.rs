//! A story is played: on an image, with a queue for each card and a log for each desk.

use std::collections::BTreeMap;

use lupaniele::{
    DeskId, Image, Lease, Log, Mode, Number, Pair, Queue, QueueAnswer, Record, Version,
};

use crate::scene::{changes, standings, Judged, Scene, Waiting};
use crate::{Event, Story};

/// The places of a queue, if the story does not say.
const PLACES: u64 = 32;

/// The bytes of a log.
const LOG: usize = 8_192;

/// What came of a story: its scenes, one for each step, and how everything stands then.
#[derive(Clone, Debug)]
pub struct Played {
    /// What happened in each step, in order.
    pub scenes: Vec<Scene>,
    /// The names of desks.
    pub names: BTreeMap<u16, String>,
    /// The image at the end.
    pub image: Image,
    /// The log of each desk that has one.
    pub logs: BTreeMap<u16, Log>,
    queues: BTreeMap<u16, Queue>,
}

impl Story {
    /// Plays the story.
    pub fn play(&self) -> Played {
        let mut played = Played {
            scenes: Vec::new(),
            names: BTreeMap::new(),
            image: self.image.clone(),
            logs: BTreeMap::new(),
            queues: BTreeMap::new(),
        };
        for (_, event) in &self.events {
            let scene = played.event(event);
            played.scenes.extend(scene);
        }
        played
    }
}

impl Played {
    /// What an event brings about; nothing where it is no step.
    fn event(&mut self, event: &Event) -> Option<Scene> {
        let scene = match event {
            Event::Note(_) => return None,
            Event::Name { desk, name } => {
                self.names.insert(*desk, name.clone());
                return None;
            }
            Event::Command { version, bytes } => self.command(*version, bytes),
            Event::Ask {
                desk,
                card,
                mode,
                pair,
                upgrade,
            } => self.ask(*desk, *card, (*mode, *pair), *upgrade),
            Event::Leave { desk, card } => self.leave(*desk, *card, None),
            Event::Lapse { desk, card, lease } => self.leave(*desk, *card, Some(*lease)),
            Event::Queue { card, places } => {
                self.queues.insert(*card, queue(*places));
                Scene::QueueBegan {
                    card: *card,
                    places: *places,
                }
            }
            Event::Log {
                desk,
                kind,
                body,
                cut,
            } => self.log(*desk, *kind, body, *cut),
            Event::Down(desk) => Scene::Down { desk: *desk },
            Event::Silent(desk) => Scene::Silent { desk: *desk },
            Event::Start(desk) => Scene::Started { desk: *desk },
            Event::Recover(desk, pairs) => self.recover(*desk, pairs),
            Event::Convert => self.convert(),
        };
        Some(scene)
    }

    fn command(&mut self, version: Version, bytes: &[u8]) -> Scene {
        let before = self.image.clone();
        let mut shown = vec![0; self.image.room().into()];
        let answer = self.image.answer_bytes(bytes, &mut shown);
        let (shown, images) = (answer.text(&shown), (Some(&before), Some(&self.image)));
        let judged = Judged::new(version, bytes, answer, shown, images.0, images.1);
        Scene::Judged(judged)
    }

    fn queue(&mut self, card: u16) -> &mut Queue {
        self.queues.entry(card).or_insert_with(|| queue(PLACES))
    }

    fn ask(&mut self, desk: DeskId, card: u16, (mode, pair): (Mode, Pair), upgrade: bool) -> Scene {
        let QueueAnswer {
            number,
            holds,
            largest,
            ..
        } = self.queue(card).ask(mode, pair);
        Scene::Asked {
            desk,
            card,
            mode,
            pair,
            upgrade,
            number,
            holds,
            largest,
            queue: waiting(self.queue(card)),
        }
    }

    fn leave(&mut self, desk: DeskId, card: u16, lease: Option<Lease>) -> Scene {
        let queue = self.queue(card);
        let answer = match lease {
            None => queue.leave(desk),
            Some(lease) => queue.lapse(desk, lease),
        };
        Scene::Left {
            desk,
            card,
            lease,
            number: answer.number,
            queue: waiting(queue),
        }
    }

    fn log(&mut self, desk: DeskId, kind: u8, body: &[u8], cut: Option<u64>) -> Scene {
        let log = self.logs.entry(desk.desk).or_insert_with(empty);
        let number = match Record::parse(kind, body) {
            Some(record) => log.append_cut(&record, cut.unwrap_or(u64::MAX)),
            None => Number::BadLog,
        };
        Scene::Logged {
            desk,
            kind,
            body: body.to_vec(),
            cut: cut.filter(|_| number == Number::AppendCut),
            number,
            records: log.count(),
        }
    }

    fn recover(&mut self, desk: DeskId, pairs: &[(u16, Pair)]) -> Scene {
        let mut of_cards = vec![Pair::NONE; self.image.count().into()];
        for (card, pair) in pairs {
            if let Some(of_card) = of_cards.get_mut(usize::from(*card)) {
                *of_card = *pair;
            }
        }
        let before = self.image.clone();
        let log = self.logs.entry(desk.desk).or_insert_with(empty);
        let (number, line) = match log.recover(&mut self.image, &of_cards) {
            Ok(()) => (Number::Accepted, 0),
            Err(stopped) => (stopped.number, stopped.line),
        };
        Scene::Recovered {
            desk,
            pairs: pairs.to_vec(),
            number,
            line,
            changes: changes(&before, &self.image),
        }
    }

    fn convert(&mut self) -> Scene {
        let number = match self.image.convert() {
            Ok(image) => {
                self.image = image;
                Number::Accepted
            }
            Err(number) => number,
        };
        Scene::Converted {
            number,
            after: standings(&self.image),
        }
    }
}

/// An empty queue; with as many places as there are where so many cannot be.
fn queue(places: u64) -> Queue {
    let made = Queue::new(places).or_else(|_| Queue::new(PLACES));
    made.expect("a queue of 32 places is good")
}

fn empty() -> Log {
    Log::empty(LOG).expect("a log of 8,192 bytes is good")
}

fn waiting(queue: &Queue) -> Waiting {
    let standing = queue.standing();
    standing
        .map(|(mode, pair)| (mode, pair.own(mode).desk_id()))
        .collect()
}
