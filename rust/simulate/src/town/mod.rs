//! A town: desks, cards, lock queues for each card, one store, a log for each
//! desk, and the post between them. A seed draws every step of it.

mod desks;
mod guests;
mod history;
mod logs;
mod manager;
mod odd;
mod post;
mod runs;
mod texts;
mod transactions;
mod versions;
mod voters;

use std::collections::HashSet;

use lupaniele::{DeskId, Image};
use second::random::Random;
use second::{Format, Pair};
use story::{Scene, Standing};

use crate::checks::desk::{learnt, proposed, Proposal, Stamps};
use crate::checks::formed::formed_as;
use crate::checks::store::{Store, AHEAD};
use crate::checks::{versions::MOST, Check, Checked};
use crate::library::{Library, Queue};
use crate::rule::Rule;
use crate::scenes;
use crate::tally::{Fault, Operation, Step, Tally};

use desks::Desk;
use guests::Guest;
pub use guests::Outcome;
use history::Engine;
use manager::Keeper;
use post::Message;
use transactions::Steps;
pub use versions::Versions;
use voters::Cut;

/// How large a town is.
#[derive(Clone, Copy, Debug, PartialEq, Eq)]
pub struct Shape {
    /// The cards, and the room of a text.
    pub cards: usize,
    /// The room of a text.
    pub room: usize,
    /// The versions of the store.
    pub versions: Versions,
    /// The desks.
    pub desks: usize,
    /// The places of each queue.
    pub places: u64,
    /// The bytes of each log.
    pub log: usize,
    /// The steps.
    pub steps: u64,
    /// Of how many of the oldest messages one arrives next: with 1 the post
    /// keeps its order.
    pub storm: usize,
    /// Whether desks send commands mostly while they hold the lock; they need
    /// not.
    pub polite: bool,
    /// Whether card 0 is first written until it has no edition left.
    pub worn: bool,
    /// Whether a desk that translates names the edition that it heard of last,
    /// and not the one that it read.
    pub careless: bool,
    /// How many desks of the crate `lupaniele` there are beside.
    pub guests: usize,
    /// How many lock managers there are, each with a queue for every card.
    pub managers: usize,
    /// Whether a desk holds the lock where most managers granted it, or where
    /// all did that it asked.
    pub majority: bool,
    /// Whether desks keep section 16, and change several cards at once by its
    /// steps.
    pub transacting: bool,
    /// With how many messages the post is so full that one arrives next, or is
    /// lost.
    pub crowd: usize,
}

impl Shape {
    /// Any shape.
    pub fn any(random: &mut Random) -> Shape {
        let steps = random.pick(&[300, 1_000, 3_000, 10_000]);
        Shape {
            cards: random.pick(&[1, 2, 2, 3, 4]),
            room: random.pick(&[16, 16, 32, 48]),
            versions: Versions::any(random, steps),
            desks: random.pick(&[2, 3, 4, 5, 8, 12]),
            places: random.pick(&[1, 2, 3, 4, 8, 32]),
            log: random.pick(&[2_201, 2_240, 2_300, 2_600, 2_600, 4_000, 6_000]),
            steps,
            storm: random.pick(&[1, 3, 10, 60]),
            polite: !random.one_in(3),
            worn: false,
            careless: false,
            guests: 0,
            managers: random.pick(&[1, 1, 2, 3, 4, 5]),
            majority: random.one_in(2),
            transacting: random.one_in(3),
            crowd: random.pick(&[10, 20, 60]),
        }
    }

    /// A large shape: an image of version 2 that has 65,536 bytes, from the
    /// opening on or by a conversion, or one that would have more.
    pub fn large(random: &mut Random) -> Shape {
        let (cards, room) = [(15, 864), (65, 192), (13, 1_024)][random.index(3)];
        let versions = match random.one_in(2) && room < 1_000 {
            true => Versions::Two,
            false => Versions::Converts(random.between(100, 400)),
        };
        Shape {
            cards,
            room,
            versions,
            steps: 1_000,
            ..Shape::any(random)
        }
    }

    /// Guests, and desks that work by the steps of section 16, have logs, and
    /// recovery is of version 1 (rule 15.13).
    fn in_its_versions(self) -> Shape {
        let versions = match self.guests > 0 || self.transacting {
            true => Versions::One,
            false => self.versions,
        };
        Shape { versions, ..self }
    }

    /// A shape whose card 0 is worn out.
    pub fn worn() -> Shape {
        Shape {
            versions: Versions::Converts(70_000),
            steps: 75_000,
            storm: 10,
            polite: false,
            worn: true,
            ..Shape::small()
        }
    }

    /// A small shape, for a picture.
    pub fn small() -> Shape {
        Shape {
            cards: 2,
            room: 16,
            versions: Versions::One,
            desks: 3,
            places: 3,
            log: 2_600,
            steps: 220,
            storm: 3,
            polite: true,
            worn: false,
            careless: false,
            guests: 0,
            managers: 1,
            majority: false,
            transacting: false,
            crowd: 60,
        }
    }
}

/// A town.
pub struct Town<'a, L: Library> {
    library: &'a mut L,
    tally: &'a mut Tally,
    random: Random,
    shape: Shape,
    rule: Option<Rule>,
    image: Vec<u8>,
    store: Store,
    keepers: Vec<Keeper>,
    stamps: Vec<Stamps>,
    desks: Vec<Desk>,
    guests: Vec<Guest>,
    post: Vec<Message>,
    history: Option<Engine>,
    careful: HashSet<(u16, u16, Vec<u8>)>,
    clock: f64,
    now: u64,
    reply: Vec<u8>,
    lent: Vec<u8>,
    proposed: HashSet<(usize, u8, Pair)>,
    cut: Option<Cut>,
    steps: Steps,
    /// How often each thing became of what guests did.
    pub outcomes: [u64; Outcome::ALL.len()],
    /// What happened, where it is wanted.
    pub scenes: Option<Vec<Scene>>,
}

impl<'a, L: Library> Town<'a, L> {
    /// A town at its opening: a fresh store, empty queues, nothing known.
    pub fn new(
        library: &'a mut L,
        tally: &'a mut Tally,
        seed: u64,
        shape: Shape,
        rule: Option<Rule>,
    ) -> Checked<Town<'a, L>> {
        let shape = shape.in_its_versions();
        let by_rules = rule.is_none_or(Rule::of_transactions);
        let (store, image) = opened(library, tally, shape, by_rules)?;
        let history = store.unheard.as_ref().map(|_| Engine::nothing());
        let mut town = Town {
            library,
            tally,
            random: Random::new(seed),
            shape,
            rule,
            image,
            store,
            keepers: vec![Keeper::new(shape.places); shape.cards * shape.managers],
            stamps: vec![Stamps::default(); shape.cards + 1],
            desks: Vec::new(),
            guests: Vec::new(),
            post: Vec::new(),
            history,
            careful: HashSet::new(),
            clock: 0.0,
            now: 0,
            reply: Vec::new(),
            lent: (0..shape.room.max(64)).map(|at| at as u8 ^ 0xa5).collect(),
            proposed: HashSet::new(),
            cut: None,
            steps: Steps::new(shape, rule),
            outcomes: [0; Outcome::ALL.len()],
            scenes: None,
        };
        town.open();
        Ok(town)
    }

    /// Desks start; where the opening's rule is broken, a queue is not empty.
    fn open(&mut self) {
        for number in 1..=self.shape.desks {
            let who = DeskId {
                desk: number as u16,
                start: 0,
            };
            self.desks.push(Desk::new(who, self.shape));
            self.knew_something(number - 1);
            self.steps.starts(number - 1, who, self.shape);
        }
        let first = self.shape.desks + 1;
        let numbers = first..first + self.shape.guests;
        self.guests = numbers
            .filter_map(|number| Guest::new(number as u16, self.shape.cards))
            .collect();
        if self.rule == Some(Rule::UsedQueue) {
            for keeper in &mut self.keepers {
                let stamp = |random: &mut Random| {
                    let desk = 1 + random.below(self.shape.desks as u64);
                    random.below(2) << 32 | desk << 16
                };
                let x = stamp(&mut self.random);
                keeper.queue.kept = [0, 0, x];
                keeper.listed.largest = Pair::new(0, x);
            }
        }
    }

    /// Runs all steps; the first breach ends it.
    pub fn run(&mut self) -> Checked {
        self.tally.towns += 1;
        while self.now < self.shape.steps {
            self.now += 1;
            self.tally.steps += 1;
            self.step()?;
            if self.halved().is_some() {
                return Ok(());
            }
        }
        let crossed = self.store.crossed > 0;
        self.tally.fault_if(crossed, Fault::SessionAcross);
        self.finish()
    }

    /// The first check of the store in which a commit is one step that did not
    /// hold, where a rule is broken.
    pub fn halved(&self) -> Option<Check> {
        self.steps.halved()
    }

    /// The premise and isolation are to hold, though a rule is broken.
    pub fn strict(&mut self) {
        self.store.by_rules = true;
        self.steps.strict();
    }

    /// How many steps were made.
    pub fn steps(&self) -> u64 {
        self.now
    }

    /// Whether the premise was broken, and whether a session was.
    pub fn broken(&self) -> [bool; 2] {
        self.store.broken
    }

    /// One step, as the seed draws it.
    fn step(&mut self) -> Checked {
        self.clock += self.random.below(4) as f64;
        if self.shape.versions == Versions::Converts(self.now) {
            return self.convert();
        }
        if self.shape.worn && self.store.cards[0].edition < u16::MAX {
            return self.wear();
        }
        if self.post.len() > self.shape.crowd {
            return match self.one_in(4) {
                true => self.lose(),
                false => self.deliver(),
            };
        }
        if !self.guests.is_empty() && self.random.one_in(4) {
            return self.guest();
        }
        match self.random.below(100) {
            0..=2 if !self.post.is_empty() => self.stream(),
            3..=57 if !self.post.is_empty() => self.deliver(),
            58..=59 => self.lose(),
            60..=61 => self.repeat(),
            62..=67 => self.manage(),
            68..=69 => self.odd(),
            _ => self.act(),
        }
    }

    /// A true draw, once in so many.
    fn one_in(&mut self, calls: u64) -> bool {
        self.random.one_in(calls)
    }

    /// Some card.
    fn card(&mut self) -> usize {
        self.random.index(self.shape.cards)
    }

    /// Whether a rule is broken here and now.
    fn breaks(&mut self, rule: Rule) -> bool {
        self.rule == Some(rule) && self.random.one_in(2)
    }

    /// How the cards stand.
    pub fn standings(&self) -> Vec<Standing> {
        let image = Image::check(&self.image[..]);
        image.map_or(Vec::new(), |image| story::standings(&image))
    }

    /// Tells what happened, where it is wanted.
    fn tell(&mut self, scene: impl FnOnce() -> Scene) {
        if let Some(scenes) = &mut self.scenes {
            scenes.push(scene());
        }
    }

    /// A command of version 1 reaches the store, with a reply buffer of some
    /// length.
    fn judge(&mut self, command: &[u8], lent: usize) -> Checked<crate::library::Answer> {
        self.judge_as(Format::V1, command, lent)
    }

    /// A command of a version reaches the store, with a reply buffer of some
    /// length.
    fn judge_as(
        &mut self,
        format: Format,
        command: &[u8],
        lent: usize,
    ) -> Checked<crate::library::Answer> {
        let sent =
            formed_as(format, command).filter(|sent| usize::from(sent.card) < self.shape.cards);
        if let Some(sent) = &sent {
            self.in_its_mode(sent.card.into(), sent.mode, sent.update)?;
        }
        self.reply.clear();
        self.reply.extend_from_slice(&self.lent[..lent]);
        let before = self.scenes.is_some().then(|| self.image.clone());
        let (image, reply) = (&mut self.image, &mut self.reply);
        let answer = self.library.answer_in(format, image, command, reply);
        self.tally.number(Operation::store(format), answer.number);
        if let Some((scenes, before)) = self.scenes.as_mut().zip(before) {
            let shown = &self.reply[..(answer.fields[6] as usize).min(lent)];
            let images = [&before[..], &self.image];
            scenes.push(scenes::judged(format, command, &answer, shown, images));
        }
        let made = &mut self.tally.made;
        let buffers = (&self.lent[..lent], &self.reply[..]);
        self.store
            .judged_as(made, format, command, buffers, &answer, &self.image)?;
        if let Some(sent) = &sent {
            self.beside_judged(sent, &answer)?;
        }
        self.hear()?;
        self.current_drops(format, command, &answer)?;
        self.still_sound()?;
        Ok(answer)
    }

    /// Once in a while: the image is sound.
    fn still_sound(&mut self) -> Checked {
        if !self.now.is_multiple_of(64) {
            return Ok(());
        }
        let sound = self.library.sound_in(self.store.format, &self.image);
        self.tally.made.same(Check::Sound, sound, true)
    }

    /// A desk learns a pair of a card.
    fn learn(&mut self, at: usize, card: usize, mut pair: Pair) -> Checked {
        let mut card = card;
        if self.breaks(Rule::HalfLearnt) {
            pair.s = 0;
        }
        if self.breaks(Rule::LearntElsewhere) {
            card = self.card();
        }
        let known = &mut self.desks[at].known[card];
        let before = *known;
        self.library.learn(known, pair);
        let known = *known;
        learnt(&mut self.tally.made, before, pair, known)
    }

    /// A desk proposes a pair for a card, and keeps it as its own; none where
    /// the answer is no.
    fn propose(&mut self, at: usize, card: usize, mode: u8) -> Checked<Option<Pair>> {
        self.tally.step(Step::Propose);
        let who = self.desks[at].who;
        let mut known = self.desks[at].known[card];
        let mut pair = [0x5a5a, 0xa5a5];
        let number = 0;
        let before = Proposal {
            number,
            known,
            pair,
        };
        let number = self
            .library
            .propose((who.desk, who.start), &mut known, mode, &mut pair);
        self.tally.number(Operation::Propose, number);
        self.tell(|| {
            let pair = scenes::pair(Pair::new(pair[0], pair[1]));
            let number = scenes::number(number);
            Scene::Said(format!(
                "desk {who} proposes {pair} for card {card}: {number}"
            ))
        });
        let after = Proposal {
            number,
            known,
            pair,
        };
        let made = &mut self.tally.made;
        proposed(made, (who.desk, who.start), mode, before, after)?;
        if number != 0 {
            return Ok(None);
        }
        self.desks[at].known[card] = known;
        if mode == 2 && self.rule.is_none() {
            self.stamps[card].once(&mut self.tally.made, pair[1])?;
        }
        let pair = self.proposed_wrong(at, (card, mode), before.known, Pair::new(pair[0], pair[1]));
        self.desks[at].at[card].open[usize::from(mode) - 1] = Some(pair);
        Ok(Some(pair))
    }

    /// A proposal is made; a desk that breaks a rule makes another one of it.
    fn proposed_wrong(
        &mut self,
        at: usize,
        (card, mode): (usize, u8),
        known: [u64; 2],
        pair: Pair,
    ) -> Pair {
        self.proposed.insert((card, mode, pair));
        let who = u64::from(self.desks[at].who.number());
        let earlier = |random: &mut Random, below: u64| random.below((below >> 32) + 1) << 32;
        match mode {
            _ if self.breaks(Rule::OwnForgotten) => self.desks[at].known[card] = known,
            1 if self.breaks(Rule::NotAbove) => {
                return Pair::new(earlier(&mut self.random, known[0]) | who, pair.x);
            }
            1 if self.breaks(Rule::GuessedX) => {
                let x = earlier(&mut self.random, known[1] + (2 << 32));
                let desk = 1 + self.random.below(self.shape.desks as u64);
                return Pair::new(pair.s, x | desk << 16);
            }
            2 if self.breaks(Rule::KeptX) && known[1] != 0 => {
                return Pair::new(pair.s, known[1]);
            }
            _ => {}
        }
        pair
    }

    /// Where that rule is broken, a desk knows something at its start.
    fn knew_something(&mut self, at: usize) {
        if self.rule != Some(Rule::KnewSomething) {
            return;
        }
        for card in 0..self.shape.cards {
            let desk = 1 + self.random.below(self.shape.desks as u64);
            let [s, x] = [self.random.below(3), self.random.below(6)];
            let own = u64::from(self.desks[at].who.desk);
            self.desks[at].known[card] = [s << 32 | own << 16, x << 32 | desk << 16];
        }
    }

    /// A desk's clock jumps ahead: it counts on from a stamp of its own that
    /// is far in the future, or exactly as far as may be.
    fn far_clock(&mut self, at: usize) {
        let card = self.card();
        let own = u64::from(self.desks[at].who.number());
        let largest = self.store.cards[card].largest;
        let edge = self.one_in(2);
        let far = self.random.pick(&[0, 1, 4_000_000, 1 << 31]);
        let ahead = if edge { AHEAD - 1 } else { AHEAD + far };
        let jump = |stored: u64| {
            let time = ((stored >> 32) + ahead).min(u64::from(u32::MAX));
            time << 32 | own
        };
        let known = &mut self.desks[at].known[card];
        *known = [known[0].max(jump(largest.s)), known[1].max(jump(largest.x))];
        let fault = if edge {
            Fault::FarEdge
        } else {
            Fault::FarClock
        };
        self.tally.fault(fault);
        let who = self.desks[at].who;
        self.tell(|| Scene::Said(format!("the clock of desk {who} jumps by {ahead}")));
    }
}

/// A fresh store and its image; one of version 1 is to be heard by the history
/// engine.
fn opened<L: Library>(
    library: &mut L,
    tally: &mut Tally,
    shape: Shape,
    by_rules: bool,
) -> Checked<(Store, Vec<u8>)> {
    let format = shape.versions.opening();
    let mut store = Store::fresh(format, shape.cards, shape.room, by_rules);
    let mut image = vec![0xee; store.image.len()];
    let (cards, room) = (shape.cards as u64, shape.room as u64);
    let (operation, number) = match format {
        Format::V1 => (Operation::Make, library.make(&mut image, cards, room)),
        Format::V2 => (Operation::Make2, library.make_v2(&mut image, cards, room)),
    };
    tally.number(operation, number);
    let made = &mut tally.made;
    made.same(Check::Made, (number, &image), (0, &store.image))?;
    tally.fault_if(image.len() == MOST, Fault::Largest);
    store.unheard = (format == Format::V1).then(Vec::new);
    Ok((store, image))
}

/// An empty queue of so many places, over places that hold anything (rule 7.3).
fn empty_queue(places: u64) -> Queue {
    Queue {
        modes: [0xaa; 32],
        s: [0xaaaa_aaaa; 32],
        x: [0xbbbb_bbbb; 32],
        kept: [0; 3],
        places,
    }
}
