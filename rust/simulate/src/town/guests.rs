//! Guests: desks of the crate `lupaniele` in the town, over the same store, the
//! same queues and a line with every fault. They are checked as everybody is.

use lupaniele::desk::{self, Exclusive, Failed, Journal, Locks, Refusal, Session, Shared, Undone};
use lupaniele::{AppendError, DeskId, Language, Log, Mode, Number, Record, Version};
use second::Pair;
use story::Scene;

use super::post::{Body, Message};
use super::transactions::Beside;
use super::Town;
use crate::checks::desk::proposal;
use crate::checks::queue::Turn;
use crate::checks::steps;
use crate::checks::{Breach, Check, Checked};
use crate::library::Library;

crate::named! {
    /// What became of what a guest did.
    Outcome {
        Done "done",
        Stale "refused as stale, each time",
        Marked "refused for a mark",
        Behind "refused as behind",
        Other "refused for another reason",
        NoAnswer "no answer came back",
        Changed "several cards changed at once",
        Aborted "a transaction given up",
        Committed "a transaction committed and not written out",
        Unknown "a transaction of which it is not known",
        Recovered "a recovery that wrote something",
        Noted "a recovery that noted a card as synced without a write",
        Asked "a place in a queue",
        Left "a queue left",
    }
}

/// A desk of the crate, and its log.
pub struct Guest {
    desk: desk::Desk,
    log: Log,
    /// What it knows of each card, by what it sent and what it was told.
    known: Vec<[u64; 2]>,
}

/// The line of a guest to the store and to the queues, and the first breach
/// that was seen on it.
struct Line<'t, 'a, L: Library> {
    town: &'t mut Town<'a, L>,
    who: DeskId,
    left: u64,
    known: Vec<[u64; 2]>,
    /// Whether nothing is lost or late, and nobody comes in between.
    calm: bool,
    breach: Option<Breach>,
}

/// What a guest hears when nothing comes back.
#[derive(Clone, Copy, Debug, PartialEq, Eq)]
struct Nothing;

impl<L: Library> Line<'_, '_, L> {
    /// What the checks said, for later.
    fn checked<T>(&mut self, checked: Checked<T>) -> Result<T, Nothing> {
        checked.map_err(|breach| {
            self.breach.get_or_insert(breach);
            Nothing
        })
    }

    /// A pair that a guest carries for the first time is what it proposes in
    /// one of the modes, by what it knew (rules 10.4 to 10.7); the town then
    /// knows in which (rule 10.8).
    fn own(&mut self, card: usize, pair: lupaniele::Pair) -> Result<(), Nothing> {
        let pair = Pair::new(pair.s.number(), pair.x.number());
        let Some(known) = self.known.get_mut(card) else {
            return Ok(());
        };
        let proposed = &mut self.town.proposed;
        if [1, 2]
            .iter()
            .any(|mode| proposed.contains(&(card, *mode, pair)))
        {
            return Ok(());
        }
        let own = self.who.number();
        let new = |mode: &u8| proposal(own, *known, *mode) == Some(pair);
        let mode = [1, 2].into_iter().find(new);
        mode.map(|mode| proposed.insert((card, mode, pair)));
        let told = || format!("{pair:x?}, and {known:x?} is known");
        let made = &mut self.town.tally.made;
        let held = made.hold(Check::Proposed, mode.is_some(), told);
        self.learns(card, pair);
        self.checked(held)
    }

    /// A guest learns a pair of a card.
    fn learns(&mut self, card: usize, pair: Pair) {
        if let Some([s, x]) = self.known.get_mut(card) {
            (*s, *x) = (pair.s.max(*s), pair.x.max(*x));
        }
    }

    /// Others come in between.
    fn others(&mut self) -> Result<(), Nothing> {
        while !self.calm && self.town.one_in(3) {
            let checked = match self.town.post.is_empty() || self.town.one_in(2) {
                true => self.town.act(),
                false => self.town.deliver(),
            };
            self.checked(checked)?;
        }
        Ok(())
    }

    /// A command is on its way, and comes when it comes.
    fn post(&mut self, command: &[u8], card: usize, lent: usize) {
        self.town.post.push(Message {
            desk: 0,
            who: self.who,
            sent: self.town.now,
            card,
            body: Body::Command(command.to_vec(), lent, None),
        });
    }
}

impl<L: Library> desk::Store for Line<'_, '_, L> {
    type Error = Nothing;

    fn version(&self) -> Version {
        Version::One
    }

    fn room(&self) -> u16 {
        self.town.shape.room as u16
    }

    fn send(&mut self, command: &[u8], reply: &mut [u8]) -> Result<lupaniele::Answer, Nothing> {
        let parsed = lupaniele::Command::parse(Version::One, command).map_err(|_| Nothing)?;
        let card = usize::from(parsed.card);
        self.own(card, parsed.update_pair())?;
        self.left = self.left.checked_sub(1).ok_or(Nothing)?;
        self.others()?;
        let lent = self.town.shape.room.min(reply.len());
        let luck = match self.calm {
            true => 20,
            false => self.town.random.below(20),
        };
        if luck < 2 {
            if luck == 0 {
                self.post(command, card, lent);
            }
            return Err(Nothing);
        }
        if luck == 2 {
            self.post(command, card, lent);
        }
        let judged = self.town.judge(command, lent);
        let answer = self.checked(judged)?;
        reply[..lent].copy_from_slice(&self.town.reply);
        if luck == 3 {
            return Err(Nothing);
        }
        let [s, x, desk, transaction, edition, from, length] = answer.fields;
        self.learns(card, Pair::new(s, x));
        let number = answer.number.into();
        let line = [number, s, x, desk, transaction, edition, from, length];
        lupaniele::Answer::from_line(line).ok_or(Nothing)
    }
}

impl<L: Library> Line<'_, '_, L> {
    fn turn(&mut self, card: u16, turn: Turn) -> Result<lupaniele::QueueAnswer, Nothing> {
        let card = usize::from(card);
        let manager = usize::from(self.who.desk) % self.town.shape.managers;
        if self.town.apart(self.who.desk, manager) {
            return Err(Nothing);
        }
        let at = self.town.queue_of(card, manager);
        let turned = self.town.turn(at, turn);
        let answer = self.checked(turned)?;
        let accepted = answer.number == 0 && matches!(turn, Turn::Ask(..));
        self.town.keepers[at].accepted += u64::from(accepted);
        let [holds, s, x, looked_at] = answer.fields;
        self.learns(card, Pair::new(s, x));
        let stamp = lupaniele::Stamp::from_number;
        Ok(lupaniele::QueueAnswer {
            number: Number::try_from(answer.number).map_err(|_| Nothing)?,
            holds: holds == 1,
            largest: lupaniele::Pair::new(stamp(s), stamp(x)),
            looked_at,
        })
    }
}

impl<L: Library> Locks for Line<'_, '_, L> {
    type Error = Nothing;

    fn ask(
        &mut self,
        card: u16,
        mode: Mode,
        pair: lupaniele::Pair,
    ) -> Result<lupaniele::QueueAnswer, Nothing> {
        self.own(card.into(), pair)?;
        let pair = Pair::new(pair.s.number(), pair.x.number());
        self.turn(card, Turn::Ask(mode.number(), pair))
    }

    fn leave(&mut self, card: u16, desk: DeskId) -> Result<lupaniele::QueueAnswer, Nothing> {
        self.turn(card, Turn::Leave(desk.number()))
    }
}

/// A guest's log, which is cut when so many stores are made.
struct Disk<'l> {
    log: &'l mut Log,
    left: u64,
    desk: u16,
    beside: Option<Beside>,
}

impl Disk<'_> {
    /// The store in which a commit is one step hears of the log.
    fn logged(&self) {
        if let Some(beside) = &self.beside {
            beside.borrow_mut().logged(self.desk, self.log.bytes());
        }
    }
}

impl Journal for Disk<'_> {
    type Error = Nothing;

    fn log(&self) -> &[u8] {
        self.log.bytes()
    }

    fn append(&mut self, record: &Record) -> Result<(), AppendError<Nothing>> {
        let number = self.log.append_cut(record, self.left);
        self.logged();
        if number == Number::AppendCut {
            self.left = 0;
            return Err(AppendError::Unknown(Nothing));
        }
        number.done().map_err(AppendError::Refused)?;
        self.left -= record.body().len() as u64 + 12;
        Ok(())
    }
}

/// A desk starts; some are more patient than others.
fn started(id: DeskId) -> desk::Desk {
    desk::Desk::start(id).trying(1 + u32::from(id.desk % 3))
}

impl Guest {
    /// A guest that has just come.
    pub(super) fn new(number: u16, cards: usize) -> Option<Guest> {
        Some(Guest {
            desk: started(DeskId::new(number, 0)),
            log: Log::empty(8_192).ok()?,
            known: vec![[0; 2]; cards],
        })
    }

    /// It does something with one card.
    fn work<L: Library>(
        &mut self,
        line: &mut Line<L>,
        card: u16,
        what: u64,
    ) -> Result<Outcome, Failed<Nothing>> {
        let text = line.town.now.to_string().into_bytes();
        let desk = &mut self.desk;
        match what {
            0 => desk.read_original(line, card).map(|_| Outcome::Done),
            1 => desk
                .read_translation(line, card, Language::First)
                .map(|_| Outcome::Done),
            2 => desk
                .write_original(line, card, &text)
                .map(|_| Outcome::Done),
            3 => desk.session(line, card, |mut session: Session<_, Shared>| {
                let original = session.read_original()?;
                if original.edition() > 0 {
                    let mut session = session.upgrade()?;
                    session.write_translation(&original, Language::First, &text)?;
                }
                Ok(Outcome::Done)
            }),
            4 => desk.session(line, card, |mut session: Session<_, Exclusive>| {
                session.read_original()?;
                session.write_original(&text)?;
                session.verify().map(|_| Outcome::Done)
            }),
            5 => {
                let mode = [Mode::Shared, Mode::Exclusive][usize::from(line.town.one_in(2))];
                desk.ask(line, card, mode).map(|_| Outcome::Asked)
            }
            _ => desk.leave(line, card).map(|_| Outcome::Left),
        }
    }

    /// It changes several cards at once.
    fn change<L: Library>(
        &mut self,
        line: &mut Line<L>,
        cards: [u16; 2],
        stores: u64,
    ) -> Option<Outcome> {
        let text = line.town.now.to_string().into_bytes();
        let mut disk = Disk {
            log: &mut self.log,
            left: stores,
            desk: self.desk.id().desk,
            beside: line.town.steps.beside.clone(),
        };
        let mut transaction = self.desk.transaction(line, &mut disk).ok()?;
        for card in cards {
            transaction.write_both(card, &text, &text).ok()?;
        }
        Some(match transaction.commit() {
            Ok(()) => Outcome::Changed,
            Err(Undone::Aborted(_)) => Outcome::Aborted,
            Err(Undone::Committed(_)) => Outcome::Committed,
            Err(Undone::Unknown(_)) => Outcome::Unknown,
        })
    }

    /// It goes down, starts again and recovers; its log begins again when
    /// nothing of it is due.
    fn restart<L: Library>(&mut self, line: &mut Line<L>, stores: u64) -> Option<Outcome> {
        let DeskId { desk, start } = self.desk.id();
        let id = DeskId::new(desk, start.wrapping_add(1));
        self.desk = started(id);
        line.who.start = id.start;
        line.known.fill([0; 2]);
        let mut disk = Disk {
            log: &mut self.log,
            left: stores,
            desk,
            beside: line.town.steps.beside.clone(),
        };
        let recovered = self.desk.recover(line, &mut disk).ok()?;
        if disk.log.count() > 120 {
            *disk.log = disk.log.begun_again()?;
            disk.logged();
        }
        match (recovered.written, recovered.synced) {
            (0, 0) => None,
            (0, _) => Some(Outcome::Noted),
            _ => Some(Outcome::Recovered),
        }
    }
}

/// What a failure counts as.
fn failed(why: &Failed<Nothing>) -> Outcome {
    match why {
        Failed::Refused(Refusal::Stale { .. }) => Outcome::Stale,
        Failed::Refused(Refusal::Marked(_)) => Outcome::Marked,
        Failed::Refused(Refusal::Behind { .. }) => Outcome::Behind,
        Failed::Transport(Nothing) => Outcome::NoAnswer,
        _ => Outcome::Other,
    }
}

impl<L: Library> Town<'_, L> {
    /// A guest that is drawn does something.
    pub(super) fn guest(&mut self) -> Checked {
        let at = self.random.index(self.guests.len());
        let mut guest = self.guests.swap_remove(at);
        let who = guest.desk.id();
        let [card, other] = [self.card() as u16, self.card() as u16];
        let what = self.random.below(12);
        let left = [u64::MAX, self.random.below(10)][usize::from(self.one_in(8))];
        let stores = [u64::MAX, self.random.below(150)][usize::from(self.one_in(8))];
        let mut line = Line {
            town: self,
            who,
            left,
            known: std::mem::take(&mut guest.known),
            calm: false,
            breach: None,
        };
        let outcome = match what {
            0..=6 => Some(match guest.work(&mut line, card, what) {
                Ok(outcome) => outcome,
                Err(why) => failed(&why),
            }),
            7..=9 => guest.change(&mut line, [card, other], stores),
            _ => guest.restart(&mut line, stores),
        };
        let (who, breach) = (line.who, line.breach);
        guest.known = line.known;
        self.guests.push(guest);
        if let Some(outcome) = outcome {
            self.outcomes[outcome as usize] += 1;
            self.tell(|| Scene::Said(format!("desk {who}, a guest: {}", outcome.words())));
        }
        breach.map_or(Ok(()), Err)
    }

    /// The end of a town of transactions: each guest starts again and recovers,
    /// with nobody in between. No card then bears its mark, and nothing of its
    /// log is due (rule 16.28).
    pub(super) fn guests_finish(&mut self) -> Checked {
        for mut guest in std::mem::take(&mut self.guests) {
            let mut line = Line {
                who: guest.desk.id(),
                left: u64::MAX,
                known: std::mem::take(&mut guest.known),
                calm: true,
                breach: None,
                town: self,
            };
            guest.restart(&mut line, u64::MAX);
            line.breach.map_or(Ok(()), Err)?;
            let desk = guest.desk.id().desk;
            let due = !steps::all_due(guest.log.bytes()).is_empty();
            let marked = self.store.cards.iter().any(|card| card.mark.desk == desk);
            let made = &mut self.tally.made;
            made.hold(Check::StepsEnd, !due && !marked, || {
                format!("desk {desk}, a guest: due: {due}, marked: {marked}")
            })?;
        }
        Ok(())
    }
}
