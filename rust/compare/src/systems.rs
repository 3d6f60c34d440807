//! Random systems of desks over one store and its lock queues: messages late,
//! lost and repeated, desks that start again, queues that are lost. By the
//! rules the premise of demand 3 holds and sessions are isolated outright;
//! where one rule is broken the premise is seen to break.

use second::random::Random;
use second::short::{fields, fresh_of, Kept, EXCLUSIVE, VERIFY};
use second::stamp::stamp;
use second::{CommandFields, Pair, Place, Turn};

use crate::answers::answer;
use crate::coverage::{Kind, Run};
use crate::demand3::{self, Event};
use crate::images;
use crate::lists::sentences;
use crate::pairs;
use crate::proposals::Knowing;
use crate::queues::turn;
use crate::run::{bytes, Compared};
use crate::sessions::{sent, sent_by, Open};

/// The rules, each as what is done where it alone is broken.
#[derive(Clone, Copy, Debug, PartialEq, Eq)]
enum Wrong {
    /// A desk starts again under the same start number.
    StartAgain,
    /// A command under a pair that nobody proposed.
    NeverProposed,
    /// A command whose verifier was proposed, and whose update pair was not.
    UpdateNotProposed,
    /// A command in the mode in which its pair was not proposed.
    OtherMode,
    /// A command for a card for which its pair was not proposed.
    OtherCard,
    /// An x is learnt without the s beside it.
    HalfLearnt,
    /// A pair is learnt of a card for which it was not told.
    LearntElsewhere,
    /// A desk does not learn its own proposal.
    OwnForgotten,
    /// A shared proposal whose s is not above the known one.
    NotAbove,
    /// A shared proposal whose x is not the known one.
    GuessedX,
    /// An exclusive proposal whose x is not above the known one.
    KeptX,
    /// A desk knows something at its start.
    KnewSomething,
    /// The store is not fresh.
    UsedStore,
    /// A queue is not empty.
    UsedQueue,
}

const WRONGS: [Wrong; 14] = [
    Wrong::StartAgain,
    Wrong::NeverProposed,
    Wrong::UpdateNotProposed,
    Wrong::OtherMode,
    Wrong::OtherCard,
    Wrong::HalfLearnt,
    Wrong::LearntElsewhere,
    Wrong::OwnForgotten,
    Wrong::NotAbove,
    Wrong::GuessedX,
    Wrong::KeptX,
    Wrong::KnewSomething,
    Wrong::UsedStore,
    Wrong::UsedQueue,
];

/// How many cards, and the room of each.
const CARDS: u16 = 2;
const ROOM: u64 = 16;

/// One desk and start, and what it knows of each card.
#[derive(Clone, Debug)]
struct Desk {
    desk: u16,
    start: u16,
    cards: Vec<Knowing>,
}

impl Desk {
    fn new(desk: u16, start: u16) -> Desk {
        let cards = (0..CARDS).map(|_| Knowing::nothing(desk, start));
        Desk {
            desk,
            start,
            cards: cards.collect(),
        }
    }
}

/// A store, its queues, desks, and all that was proposed, told and sent.
struct System {
    image: Vec<u8>,
    queues: Vec<Kept>,
    desks: Vec<Desk>,
    made: Vec<Open>,
    told: Vec<(u16, Pair)>,
    events: Vec<Event>,
    counted: bool,
}

/// Systems by the rules, and one for each rule that is broken.
pub fn any(run: &mut Run, random: &mut Random) -> Compared<()> {
    for _ in 0..6 {
        right(run, random)?;
    }
    (0..WRONGS.len()).try_for_each(|at| wrong(run, random, at))
}

/// One rule is broken, once, among steps by the rules.
fn wrong(run: &mut Run, random: &mut Random, at: usize) -> Compared<()> {
    let mut system = System::new(run, random, false)?;
    system.all(run, random, WRONGS[at], true)?;
    if system.premise() {
        let rule = WRONGS[at];
        return Err(format!("{rule:?} alone, and the premise holds\n"));
    }
    run.seen_at(Kind::BrokenRules, at);
    if demand3::isolated_outright(CARDS, &system.events).is_err() {
        run.seen(Kind::LostIsolation);
    }
    Ok(())
}

/// The same steps, with no rule broken.
fn right(run: &mut Run, random: &mut Random) -> Compared<()> {
    let mut system = System::new(run, random, true)?;
    let at = random.index(WRONGS.len());
    system.all(run, random, WRONGS[at], false)?;
    let input = || {
        let list = system.events.iter().map(|event| &event.command);
        let list: String = list.map(|command| bytes("command", command)).collect();
        format!("  proposed: {:x?}\n{list}", system.made)
    };
    if !system.premise() {
        return Err(format!("desks by the rules broke the premise\n{}", input()));
    }
    let pairs = demand3::isolated_outright(CARDS, &system.events)
        .map_err(|told| format!("desks by the rules: {told}\n{}", input()))?;
    (0..pairs).for_each(|_| run.seen(Kind::SystemIsolated));
    for card in 0..CARDS {
        let speaks = demand3::premise_speaks(&system.events, card);
        run.seen_at(Kind::SystemPremise, usize::from(!speaks));
    }
    sentences(run, CARDS, &system.events)?;
    run.seen(Kind::Systems);
    Ok(())
}

impl System {
    fn new(run: &mut Run, random: &mut Random, counted: bool) -> Compared<System> {
        let mut image = vec![0xee; fresh_of(run.format, CARDS.into(), ROOM).len()];
        images::make(run, &mut image, CARDS.into(), ROOM)?;
        let queue = |random: &mut Random| Kept::new(random.pick(&[1, 2, 3, 4]), &[]);
        Ok(System {
            image,
            queues: (0..CARDS).map(|_| queue(random)).collect(),
            desks: Vec::new(),
            made: Vec::new(),
            told: Vec::new(),
            events: Vec::new(),
            counted,
        })
    }

    /// The steps that one rule is for, and random ones, after them or before:
    /// the opening's rules can be broken at the opening alone.
    fn all(
        &mut self,
        run: &mut Run,
        random: &mut Random,
        rule: Wrong,
        broken: bool,
    ) -> Compared<()> {
        let opening = matches!(rule, Wrong::UsedStore | Wrong::UsedQueue);
        if !opening && random.one_in(2) {
            self.steps(run, random)?;
        }
        self.tempt(run, random, rule, broken)?;
        self.steps(run, random)
    }

    /// Whether the premise holds for every card.
    fn premise(&self) -> bool {
        (0..CARDS).all(|card| demand3::premise(&self.events, card))
    }

    fn steps(&mut self, run: &mut Run, random: &mut Random) -> Compared<()> {
        for desk in 1..=3 {
            self.begin(run, desk)?;
        }
        (0..random.between(10, 100)).try_for_each(|_| self.step(run, random))
    }

    /// Something happens, by the rules.
    fn step(&mut self, run: &mut Run, random: &mut Random) -> Compared<()> {
        let open = recent(random, &self.made).unwrap_or_default();
        let told = recent(random, &self.told);
        let at = random.index(self.desks.len());
        let card = some_card(random);
        let rare = random.one_in(20);
        match random.below(8) {
            _ if rare && random.one_in(3) => self.lose(run, card),
            _ if rare => self.begin(run, random.between(1, 3) as u16),
            0 => self.propose(run, at, card, random.pick(&[1, 1, 2])),
            _ if self.made.is_empty() => self.propose(run, at, card, 1),
            1 => self.ask(run, random, open),
            2 => self.leave(run, random, card),
            3..=4 => self.send(run, random, open, false),
            5 => self.learn(run, at, told),
            6 => self.catch_up(run, random, at, told),
            _ => self.behind_time(run, random, at, card),
        }
    }

    /// A desk learns an answer, proposes, asks and sends.
    fn catch_up(
        &mut self,
        run: &mut Run,
        random: &mut Random,
        at: usize,
        told: Option<(u16, Pair)>,
    ) -> Compared<()> {
        let Some((card, _)) = told else {
            return Ok(());
        };
        self.learn(run, at, told)?;
        self.propose(run, at, card.into(), random.pick(&[1, 1, 2]))?;
        let open = self.newest();
        self.ask(run, random, open)?;
        self.send(run, random, open, false)
    }

    /// A desk for which only old answers come through: none with an x above
    /// the one that it knows, but the largest s beside such an x. It proposes
    /// exclusive, and sends.
    fn behind_time(
        &mut self,
        run: &mut Run,
        random: &mut Random,
        at: usize,
        card: usize,
    ) -> Compared<()> {
        let known = self.desks[at].cards[card].0.pair.x;
        let old = self.told.iter().copied();
        let old = old.filter(|(of, pair)| usize::from(*of) == card && pair.x <= known);
        let old = old.max_by_key(|(_, pair)| pair.s);
        self.learn(run, at, old)?;
        self.propose(run, at, card, 2)?;
        self.send(run, random, self.newest(), false)
    }

    /// Counts a step by the rules.
    fn count(&self, run: &mut Run, step: usize) {
        if self.counted {
            run.seen_at(Kind::SystemSteps, step);
        }
    }

    /// A desk starts under a start number that it never had, and knows
    /// nothing; its earlier starts may still be there.
    fn begin(&mut self, run: &mut Run, desk: u16) -> Compared<()> {
        let earlier = self.desks.iter().filter(|other| other.desk == desk);
        self.desks.push(Desk::new(desk, earlier.count() as u16));
        self.count(run, 0);
        Ok(())
    }

    fn propose(&mut self, run: &mut Run, at: usize, card: usize, mode: u8) -> Compared<()> {
        let knowing = &mut self.desks[at].cards[card];
        if let Ok(pair) = knowing.propose(run, mode)? {
            let card = card as u16;
            self.made.push(Open { card, mode, pair });
        }
        self.count(run, 1);
        Ok(())
    }

    /// An ask under a proposal reaches a queue, or a malformed one does.
    fn ask(&mut self, run: &mut Run, random: &mut Random, open: Open) -> Compared<()> {
        let Open { card, mode, pair } = open;
        let mode = if random.one_in(20) { 3 } else { mode };
        self.asked(run, Open { card, mode, pair })
    }

    fn asked(&mut self, run: &mut Run, open: Open) -> Compared<()> {
        let Pair { s, x } = open.pair;
        self.count(run, 2);
        self.taken(run, open.card, Turn::Ask(Place::new(open.mode, s, x)))
    }

    /// A desk is made to leave a queue, by whomever.
    fn leave(&mut self, run: &mut Run, random: &mut Random, card: usize) -> Compared<()> {
        let at = random.index(self.desks.len());
        let Desk { desk, start, .. } = self.desks[at];
        let desk = u32::from(desk) << 16 | u32::from(start);
        self.count(run, 3);
        self.taken(run, card as u16, Turn::Leave(desk))
    }

    fn taken(&mut self, run: &mut Run, card: u16, taken: Turn) -> Compared<()> {
        let queue = &mut self.queues[usize::from(card)];
        let (_, [_, s, x, _]) = turn(run, queue, taken)?;
        self.told.push((card, Pair::new(s, x)));
        Ok(())
    }

    /// A queue is lost, and begins again empty over what its places hold.
    fn lose(&mut self, run: &mut Run, card: usize) -> Compared<()> {
        let queue = &mut self.queues[card];
        queue.count = 0;
        queue.largest = Pair::default();
        self.count(run, 4);
        Ok(())
    }

    /// A command under a proposal reaches the store; if it need not be whole,
    /// now and then malformed bytes do.
    fn send(
        &mut self,
        run: &mut Run,
        random: &mut Random,
        open: Open,
        whole: bool,
    ) -> Compared<()> {
        let mut command = sent(run.format, random, &self.image, open);
        if !whole && random.one_in(20) {
            command.truncate(random.index(52));
        }
        self.sends(run, random, open.card, &command)
    }

    /// A command for a card reaches the store.
    fn sends(
        &mut self,
        run: &mut Run,
        random: &mut Random,
        card: u16,
        command: &[u8],
    ) -> Compared<()> {
        let length = random.pick(&[0, 16]);
        let lent = random.bytes(length);
        let mut reply = lent.clone();
        let told = answer(run, &mut self.image, command, &mut reply)?;
        self.events
            .push(Event::new(run.format, command, lent, told, &reply));
        let [s, x, ..] = told.fields;
        self.told.push((card, Pair::new(s, x)));
        self.count(run, 5);
        if self.counted && told.number == 0 && pairs::opening(run.format, command).is_some() {
            run.seen(Kind::SystemOpenings);
        }
        Ok(())
    }

    /// A desk learns an answer for a card, to whomever it was given.
    fn learn(&mut self, run: &mut Run, at: usize, told: Option<(u16, Pair)>) -> Compared<()> {
        let Some((card, pair)) = told else {
            return Ok(());
        };
        self.count(run, 6);
        self.desks[at].cards[usize::from(card)].learn(run, pair)
    }

    /// Three desks start, and come to where one of them may break a rule: it is
    /// broken, or what the rule asks for is done instead.
    fn tempt(
        &mut self,
        run: &mut Run,
        random: &mut Random,
        rule: Wrong,
        broken: bool,
    ) -> Compared<()> {
        let w = self.desks.len();
        let (r, h) = (w + 1, w + 2);
        for _ in 0..3 {
            self.begin(run, random.between(1, 3) as u16)?;
        }
        // The first exclusive stamp of the desk that writes, and the first
        // shared one of the desk that reads.
        let own = |desk: &Desk| stamp(0, desk.desk, desk.start);
        let (first, low) = (own(&self.desks[w]), own(&self.desks[r]));
        let early = Pair::new(0, first);
        match rule {
            Wrong::StartAgain
            | Wrong::OwnForgotten
            | Wrong::NeverProposed
            | Wrong::UpdateNotProposed => {
                self.write_then_read(run, random, (w, r))?;
                let high = self.high(run, h, 0)?;
                let Desk { desk, start, .. } = self.desks[w];
                match rule {
                    _ if !broken => {}
                    Wrong::StartAgain => self.desks[w] = Desk::new(desk, start),
                    Wrong::OwnForgotten => self.desks[w].cards[0] = Knowing::nothing(desk, start),
                    Wrong::UpdateNotProposed => {
                        let (card, mode, pair) = (0, 2, Pair::new(high.s, first));
                        let open = Open { card, mode, pair };
                        let command = sent_by(run.format, random, &self.image, open, Some(early));
                        return self.sends(run, random, 0, &command);
                    }
                    _ => return self.sent_under(run, random, (2, high.s, first)),
                }
                self.write(run, random, (w, 0), high)
            }
            Wrong::OtherMode | Wrong::KeptX => {
                let read = self.write_then_read(run, random, (w, r))?;
                match broken {
                    true => self.sent_under(run, random, (2, read.s, read.x)),
                    false => self.write(run, random, (r, 0), read),
                }
            }
            Wrong::OtherCard => {
                self.write_then_read(run, random, (w, r))?;
                let high = self.high(run, h, 1)?;
                self.write(run, random, (w, 1), high)?;
                match broken {
                    true => self.sent_under(run, random, (2, high.s, first)),
                    false => Ok(()),
                }
            }
            Wrong::HalfLearnt | Wrong::LearntElsewhere | Wrong::NotAbove => {
                if rule == Wrong::LearntElsewhere {
                    self.write(run, random, (w, 1), Pair::default())?;
                }
                let high = self.high(run, h, 0)?;
                self.write(run, random, (w, 0), high)?;
                match (broken, rule) {
                    (false, _) => self.read(run, random, r, Pair::new(high.s, first)),
                    (true, Wrong::NotAbove) => self.sent_under(run, random, (1, low, first)),
                    (true, _) => self.read(run, random, r, early),
                }
            }
            Wrong::GuessedX | Wrong::KnewSomething => {
                let high = self.high(run, h, 0)?;
                match (broken, rule) {
                    (false, _) => self.read(run, random, r, Pair::default())?,
                    (true, Wrong::GuessedX) => self.sent_under(run, random, (1, low, first))?,
                    (true, _) => self.read(run, random, r, early)?,
                }
                self.write(run, random, (w, 0), high)
            }
            Wrong::UsedStore | Wrong::UsedQueue => {
                if broken && rule == Wrong::UsedStore {
                    let verify = CommandFields {
                        format: run.format,
                        ..fields(VERIFY, EXCLUSIVE, early)
                    };
                    answer(run, &mut self.image, &verify.with_payload(&[]), &mut [])?;
                }
                if broken && rule == Wrong::UsedQueue {
                    self.queues[0].largest = early;
                }
                self.propose(run, r, 0, 1)?;
                let open = self.newest();
                match rule {
                    Wrong::UsedStore => self.send(run, random, open, true)?,
                    _ => self.asked(run, open)?,
                }
                let told = self.told.last().map_or(Pair::default(), |(_, pair)| *pair);
                self.read(run, random, r, told)?;
                let high = self.high(run, h, 0)?;
                self.write(run, random, (w, 0), high)
            }
        }
    }

    /// The newest proposal.
    fn newest(&self) -> Open {
        self.made.last().copied().unwrap_or_default()
    }

    /// The newest proposal is asked with at a queue that was just lost, so that
    /// its pair, and no larger stamp, is told.
    fn tell(&mut self, run: &mut Run) -> Compared<Pair> {
        let open = self.newest();
        self.lose(run, open.card.into())?;
        self.asked(run, open)?;
        Ok(open.pair)
    }

    /// A desk that knows nothing proposes shared three times, and the last pair
    /// is told: an s of T 2 with no x.
    fn high(&mut self, run: &mut Run, at: usize, card: usize) -> Compared<Pair> {
        (0..3).try_for_each(|_| self.propose(run, at, card, 1))?;
        self.tell(run)
    }

    /// A desk learns a pair, proposes exclusive, which is told, and writes.
    fn write(
        &mut self,
        run: &mut Run,
        random: &mut Random,
        (at, card): (usize, usize),
        heard: Pair,
    ) -> Compared<()> {
        self.learn(run, at, Some((card as u16, heard)))?;
        self.propose(run, at, card, 2)?;
        self.tell(run)?;
        self.send(run, random, self.newest(), true)
    }

    /// A desk learns a pair, proposes shared, which is told, and reads.
    fn read(&mut self, run: &mut Run, random: &mut Random, at: usize, heard: Pair) -> Compared<()> {
        self.learn(run, at, Some((0, heard)))?;
        self.propose(run, at, 0, 1)?;
        self.tell(run)?;
        self.send(run, random, self.newest(), true)
    }

    /// One desk writes from nothing known, another learns that and reads, under
    /// the pair that it gives.
    fn write_then_read(
        &mut self,
        run: &mut Run,
        random: &mut Random,
        (w, r): (usize, usize),
    ) -> Compared<Pair> {
        self.write(run, random, (w, 0), Pair::default())?;
        let written = self.newest().pair;
        self.read(run, random, r, written)?;
        Ok(self.newest().pair)
    }

    /// A command for the first card under a pair that is none of its sender's.
    fn sent_under(
        &mut self,
        run: &mut Run,
        random: &mut Random,
        (mode, s, x): (u8, u64, u64),
    ) -> Compared<()> {
        let (card, pair) = (0, Pair::new(s, x));
        self.send(run, random, Open { card, mode, pair }, true)
    }
}

/// A card, mostly the first.
fn some_card(random: &mut Random) -> usize {
    usize::from(random.one_in(4))
}

/// Mostly one of the last few, now and then any: late, or again.
fn recent<T: Copy>(random: &mut Random, all: &[T]) -> Option<T> {
    let from = match random.one_in(4) {
        true => 0,
        false => all.len().saturating_sub(4),
    };
    let few = all.get(from..).unwrap_or_default();
    few.get(random.index(few.len())).copied()
}
