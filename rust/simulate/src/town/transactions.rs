//! Towns of transactions: desks that change several cards at once by the steps
//! that the library tells them (rules 16.24 to 16.27), with everything late,
//! lost, repeated and cut, and a desk that acts for one that is down (16.23).
//! Beside the store stands one in which a commit is one step.

use std::cell::RefCell;
use std::collections::BTreeSet;
use std::rc::Rc;

use lupaniele::DeskId;
use second::{CommandFields, Mark, Pair};
use story::Scene;

use super::desks::State;
use super::post::Body;
use super::{Shape, Town};
use crate::checks::atomic::Atomic;
use crate::checks::formed::Sent;
use crate::checks::log::{read, Update, BEGIN, BODIES, COMMIT, SYNCED, UPDATE};
use crate::checks::steps::{self, Seen, LOOK, NOTE, NOTHING, PREPARE, READY, RELEASE, WAIT, WRITE};
use crate::checks::{Check, Checked};
use crate::library::{Answer, Library, Next};
use crate::rule::Rule;
use crate::tally::{Fault, Operation, Step};

/// The store in which a commit is one step; the disks of guests tell it of
/// their logs.
pub(super) type Beside = Rc<RefCell<Atomic>>;

/// For how many steps a desk waits for an answer, mostly.
const PATIENCE: u64 = 100;

/// The lines and the bytes that a log must have left for a transaction.
const ROOMY: (usize, usize) = (30, 120);

/// A command on its way: which one, when it was sent, its step and line.
#[derive(Clone, Copy, Debug)]
struct OnItsWay {
    id: u64,
    when: u64,
    step: (u8, u8),
}

/// What the holder of a log has in mind of a card.
#[derive(Clone, Debug, Default)]
struct Follow {
    /// What it has seen, as the library wrote it and as the rules have it.
    seen: [u16; 4],
    by_rules: Option<Seen>,
    /// The fields of the answer that it has seen.
    fields: [u64; 7],
    /// The command that it sent last, the ones before, and its last pair.
    last: Option<OnItsWay>,
    earlier: Vec<OnItsWay>,
    pair: Option<Pair>,
}

impl Follow {
    /// A command is sent: nothing is seen until its answer comes.
    fn sends(&mut self, sent: OnItsWay) {
        self.earlier.extend(self.last.replace(sent));
        let extra = self.earlier.len().saturating_sub(4);
        self.earlier.drain(..extra);
        (self.seen, self.by_rules) = ([0; 4], None);
    }
}

/// Who holds a log, and what it has in mind.
#[derive(Clone, Debug)]
struct Mind {
    at: usize,
    who: DeskId,
    held: bool,
    going: bool,
    cards: Vec<Follow>,
}

/// What a town of transactions has besides: the logs, the store in which a
/// commit is one step, how many commands were sent, and whether it ends.
#[derive(Debug, Default)]
pub struct Steps {
    books: Vec<Book>,
    pub(super) beside: Option<Beside>,
    ids: u64,
    finishing: bool,
}

impl Steps {
    /// Of a fresh town.
    pub(super) fn new(shape: Shape, rule: Option<Rule>) -> Steps {
        let beside = || Atomic::new(shape.cards, shape.room, rule.is_none());
        let beside = shape.transacting.then(|| Rc::new(RefCell::new(beside())));
        Steps {
            beside,
            ..Steps::default()
        }
    }

    /// A desk starts, and has a log.
    pub(super) fn starts(&mut self, at: usize, who: DeskId, shape: Shape) {
        if shape.transacting {
            let book = Book::new(at, who, shape.log.max(2_400), shape.cards);
            self.books.push(book);
        }
    }

    /// The first check of the store beside that did not hold, where a rule is
    /// broken.
    pub(super) fn halved(&self) -> Option<Check> {
        let beside = self.beside.as_ref();
        beside.and_then(|beside| beside.borrow().broken)
    }

    /// Every check of the store beside must hold, though a rule is broken.
    pub(super) fn strict(&mut self) {
        if let Some(beside) = &self.beside {
            beside.borrow_mut().strict();
        }
    }
}

/// A desk's log, and who holds it. Its mark is the desk's number.
#[derive(Clone, Debug)]
pub struct Book {
    log: Vec<u8>,
    transaction: u32,
    mind: Mind,
    /// Where that rule is broken, the one who held it before, and goes on.
    former: Option<Mind>,
    /// Where that rule is broken, a prepare that is on its way, and its card.
    late: Option<(usize, Vec<u8>)>,
}

impl Book {
    pub(super) fn new(at: usize, who: DeskId, log: usize, cards: usize) -> Book {
        Book {
            log: vec![0; log],
            transaction: 0,
            mind: Mind {
                at,
                who,
                held: true,
                going: false,
                cards: vec![Follow::default(); cards],
            },
            former: None,
            late: None,
        }
    }

    /// The lines and the bytes that are left in the log.
    fn left(&self) -> (usize, usize) {
        let bodies = |log| read(log).map_or(0, |read| read.records.iter().map(|r| r.1.len()).sum());
        let used: usize = bodies(&self.log);
        (
            200 - usize::from(self.log[0]),
            self.log.len() - BODIES - used,
        )
    }

    /// The cards of which something is due, and those of the open transaction.
    fn cards(&self) -> BTreeSet<usize> {
        let open = steps::open(&self.log).map_or(Vec::new(), |(_, updates)| updates);
        let all = steps::all_due(&self.log).into_iter().chain(open);
        all.map(|update| update.card.into()).collect()
    }
}

/// The number in the marks of a log.
fn owner(book: usize) -> u16 {
    book as u16 + 1
}

/// What a desk has in mind of the logs that it holds.
fn minds(books: &mut [Book], at: usize, who: DeskId) -> impl Iterator<Item = &mut Mind> {
    let all = books
        .iter_mut()
        .flat_map(|book| std::iter::once(&mut book.mind).chain(&mut book.former));
    all.filter(move |mind| mind.held && mind.at == at && mind.who == who)
}

/// A mark in the fields of an answer.
fn mark_in(fields: [u64; 7]) -> Mark {
    Mark::new(fields[2] as u16, fields[3] as u32)
}

impl<L: Library> Town<'_, L> {
    /// A desk works on a log: its own, or that of a desk that is down.
    pub(super) fn tend(&mut self, at: usize) -> Checked {
        let Some(book) = self.book_for(at) else {
            return Ok(());
        };
        for _ in 0..self.random.pick(&[1, 3, 6]) {
            if !self.desks[at].is_up() || !self.holds_book(at, book) {
                return Ok(());
            }
            self.tend_once(at, book)?;
        }
        Ok(())
    }

    fn tend_once(&mut self, at: usize, book: usize) -> Checked {
        self.tally.step(Step::Transact);
        let often = matches!(
            self.rule,
            Some(Rule::RecoversUnmarked | Rule::RecoversStored)
        );
        if book != at && self.one_in(10) {
            self.steps.books[book].mind.held = false;
            return Ok(());
        }
        if self.one_in(if often { 6 } else { 80 }) {
            return self.recover_book(book);
        }
        if self.steps.books[book].mind.going {
            return self.go_on(book);
        }
        let due = !steps::all_due(&self.steps.books[book].log).is_empty();
        match self.one_in(if due { 12 } else { 4 }) {
            true => self.begin_book(book),
            false => self.some_step(book),
        }
    }

    /// The log that a desk works on: one that it holds or takes over.
    fn book_for(&mut self, at: usize) -> Option<usize> {
        let other = self.random.index(self.steps.books.len());
        let first = if self.one_in(4) { other } else { at };
        [first, at]
            .into_iter()
            .find(|book| self.holds_book(at, *book) || self.takes_book(at, *book))
    }

    fn holds_book(&mut self, at: usize, book: usize) -> bool {
        let who = self.desks[at].who;
        let holds = |mind: &Mind| mind.held && mind.at == at && mind.who == who;
        let book = &mut self.steps.books[book];
        if let Some(former) = book.former.as_mut().filter(|former| holds(former)) {
            std::mem::swap(former, &mut book.mind);
        }
        holds(&book.mind)
    }

    /// A log that nobody holds is taken over, by its desk or while its desk is
    /// down by another: no card is held or free to who takes it (16.10, 16.23).
    fn takes_book(&mut self, at: usize, book: usize) -> bool {
        let mind = &self.steps.books[book].mind;
        let holder = &self.desks[mind.at];
        let gone = !mind.held || holder.who != mind.who || holder.state == State::Down;
        let theirs = book != at && self.desks[book].state != State::Down;
        let silent = holder.state == State::Silent && self.rule == Some(Rule::TwoHolders);
        if (!gone || theirs) && !silent {
            return false;
        }
        let going = self.one_in(3);
        let who = self.desks[at].who;
        let cards = self.shape.cards;
        let fresh = Book::new(at, who, 0, cards).mind;
        let taken = &mut self.steps.books[book];
        let former = std::mem::replace(&mut taken.mind, Mind { going, ..fresh });
        taken.former = silent.then_some(former);
        self.tally.fault_if(book != at, Fault::TakenOver);
        let owner = owner(book);
        self.tell(|| Scene::Said(format!("desk {who} holds the log of desk {owner}")));
        true
    }

    /// A transaction begins; where the log has little room left it begins again
    /// if nothing is due, and else what is due is seen to.
    fn begin_book(&mut self, book: usize) -> Checked {
        let (lines, bytes) = self.steps.books[book].left();
        if lines < ROOMY.0 || bytes < ROOMY.1 || self.one_in(12) {
            return self.book_begins_again(book);
        }
        let next = self.steps.books[book].transaction + 1;
        if self.append_book(book, BEGIN, &next.to_le_bytes())? {
            self.steps.books[book].transaction = next;
            self.steps.books[book].mind.going = true;
        }
        Ok(())
    }

    fn book_begins_again(&mut self, book: usize) -> Checked {
        if self.breaks(Rule::BegunAgainDue) {
            self.steps.books[book].log[0] = 0;
            self.logged(book);
            return self.all_stand();
        }
        let log = &mut self.steps.books[book].log;
        let before = log.clone();
        let begun = self.library.begin_again(log);
        steps::begun_again(&mut self.tally.made, &before, begun, log)?;
        self.logged(book);
        self.tally.fault_if(begun, Fault::BegunAgain);
        self.tally.fault_if(!begun, Fault::NotBegunAgain);
        self.some_step(book)
    }

    /// The holder goes on with the open transaction, or gives it up.
    fn go_on(&mut self, book: usize) -> Checked {
        let Some((_, updates)) = steps::open(&self.steps.books[book].log) else {
            self.steps.books[book].mind.going = false;
            return Ok(());
        };
        if self.one_in(100) {
            self.steps.books[book].mind.going = false;
            self.tally.fault(Fault::Abandoned);
            return Ok(());
        }
        let cards: BTreeSet<u16> = updates.iter().map(|update| update.card).collect();
        match cards.len() {
            0 => self.update_book(book, &updates),
            1 if self.one_in(3) => self.update_book(book, &updates),
            _ if updates.len() < 5 && self.one_in(60) => self.update_book(book, &updates),
            _ => self.some_step(book),
        }
    }

    /// An update that can be written (rule 16.21); often an original and its
    /// translation behind it. The log keeps room for the commit and for a note
    /// of each card.
    fn update_book(&mut self, book: usize, open: &[Update]) -> Checked {
        let (card, other) = (self.card(), self.card());
        let twice = |card: usize| open.iter().any(|update| usize::from(update.card) == card);
        let card = if twice(card) { other } else { card };
        let at = self.steps.books[book].mind.at;
        let of = |update: &Update| usize::from(update.card) == card && update.side == 1;
        let based = open.iter().any(of) || self.desks[at].at[card].held.edition > 0;
        let sides: &[u8] = match self.random.below(4) {
            0 if based => &[2],
            1 => &[1],
            _ => &[1, 2],
        };
        for side in sides {
            let mut text = format!("{} {side}", self.now).into_bytes();
            if self.breaks(Rule::Unwritable) {
                text.resize(self.shape.room + 1, b'!');
            }
            let mut body = (card as u16).to_le_bytes().to_vec();
            body.push(*side);
            body.extend(text);
            let (lines, bytes) = self.steps.books[book].left();
            let notes = self.steps.books[book].cards().len() + 1;
            if lines < 2 + notes || bytes < body.len() + 4 + 6 * notes {
                self.steps.books[book].mind.going = false;
                return Ok(());
            }
            if !self.append_book(book, UPDATE, &body)? {
                return Ok(());
            }
        }
        Ok(())
    }

    /// A step for some card that the log speaks of, now and then for any.
    fn some_step(&mut self, book: usize) -> Checked {
        let cards: Vec<usize> = self.steps.books[book].cards().into_iter().collect();
        let card = match cards.is_empty() || self.one_in(8) {
            true => self.card(),
            false => cards[self.random.index(cards.len())],
        };
        self.take_step(book, card)
    }

    /// The next step for a card, as the library tells it, checked.
    fn next_step(&mut self, book: usize, card: usize) -> Checked<Next> {
        let Book { log, mind, .. } = &self.steps.books[book];
        let (place, follow) = ((owner(book), card as u16), &mind.cards[card]);
        let told = self.library.next_step(log, place, mind.going, &follow.seen);
        self.tally.number(Operation::NextStep, told.0);
        let by = (mind.going, follow.by_rules);
        steps::stepped(&mut self.tally.made, log, place, by, told)?;
        Ok(told)
    }

    /// The holder takes the next step for a card.
    fn take_step(&mut self, book: usize, card: usize) -> Checked {
        let (step, line, noted) = self.next_step(book, card)?;
        if step == NOTE {
            self.comes_late(book, card);
        }
        let wrong = self.wrong_step(book, card, (step, line, noted));
        let (step, line, noted) = wrong.unwrap_or((step, line, noted));
        match step {
            LOOK if self.waiting(book, card) => self.deliver(),
            LOOK => self.look(book, card),
            PREPARE | RELEASE => self.order(book, card, step, None),
            WRITE => {
                let update = self.update_at(book, line);
                self.order(book, card, step, update)
            }
            READY => self.commit_book(book),
            NOTE => {
                let mut body = (card as u16).to_le_bytes().to_vec();
                body.extend((noted as u32).to_le_bytes());
                self.append_book(book, SYNCED, &body).map(|_| ())
            }
            WAIT if self.one_in(3) => {
                self.steps.books[book].mind.going = false;
                Ok(())
            }
            NOTHING if !self.one_in(3) => Ok(()),
            _ => self.look(book, card),
        }
    }

    /// What a desk does in place of a step where a rule is broken.
    fn wrong_step(&mut self, book: usize, card: usize, (step, _, _): Next) -> Option<Next> {
        let (rule, now, waits) = (self.rule?, self.one_in(2), !self.one_in(20));
        let log = &self.steps.books[book].log;
        let of = |update: &&Update| usize::from(update.card) == card;
        match (step, rule) {
            (READY, Rule::WrittenEarly) if now => {
                let (_, open) = steps::open(log)?;
                Some((WRITE, open.iter().find(of)?.line, 0))
            }
            (WRITE, Rule::LineSkipped) => {
                let due = steps::all_due(log);
                Some((WRITE, due.iter().rfind(of)?.line, 0))
            }
            (WRITE, Rule::ReleasedUnwritten) => Some((RELEASE, 0, 0)),
            (WRITE, Rule::NotedMarked) => {
                let due = steps::all_due(log);
                Some((NOTE, 0, due.iter().rfind(of)?.transaction.into()))
            }
            (NOTE, Rule::PreparedDue) => Some((PREPARE, 0, 0)),
            (NOTE, Rule::OrderGuessed) if waits => Some((NOTHING, 0, 0)),
            (_, Rule::CommitsUnheld) if now => Some((READY, 0, 0)),
            _ => None,
        }
    }

    /// Whether a desk has something under way for a card, and mostly sends
    /// nothing else for it then.
    pub(super) fn busy(&mut self, at: usize, card: usize) -> bool {
        let speaks = |book: &Book| book.mind.at == at && book.cards().contains(&card);
        self.steps.books.iter().any(speaks) && !self.one_in(20)
    }

    /// Whether the answer to the last command is still waited for.
    fn waiting(&mut self, book: usize, card: usize) -> bool {
        let last = self.steps.books[book].mind.cards[card].last;
        let lately = last.is_some_and(|last| self.now < last.when + PATIENCE);
        lately && !self.steps.finishing && !self.one_in(80)
    }

    /// The update in a line of a log.
    fn update_at(&self, book: usize, line: u64) -> Option<Update> {
        let log = &self.steps.books[book].log;
        let open = steps::open(log).map_or(Vec::new(), |(_, updates)| updates);
        let mut all = steps::all_due(log).into_iter().chain(open);
        all.find(|update| update.line == line)
    }

    /// A command without a mark, for its answer.
    fn look(&mut self, book: usize, card: usize) -> Checked {
        let at = self.steps.books[book].mind.at;
        let Some(pair) = self.propose(at, card, 1)? else {
            return Ok(());
        };
        let fields = CommandFields {
            act: self.random.pick(&[1, 2, 5, 5]),
            mode: 1,
            card: card as u16,
            pair,
            ..CommandFields::default()
        };
        self.dispatch(book, card, (LOOK, 0), fields.to_bytes())
    }

    /// An order on the word of the answer that was seen: its pair is the
    /// verifier, and the holder's next proposal the update pair (16.4, 16.26).
    fn order(&mut self, book: usize, card: usize, step: u8, write: Option<Update>) -> Checked {
        let at = self.steps.books[book].mind.at;
        let fields = self.steps.books[book].mind.cards[card].fields;
        let Some(pair) = self.propose(at, card, 2)? else {
            return Ok(());
        };
        let guessed = step == PREPARE && self.guesses(book);
        let [verifier, update] = match guessed {
            true => self.guess(at, card, pair)?,
            false => self.order_pairs(book, card, fields, pair),
        };
        self.steps.books[book].mind.cards[card].pair = Some(update);
        let number = write.as_ref().map(|write| write.transaction);
        let own = self.own_mark(book, number);
        let (expected, next) = match step {
            PREPARE => (Mark::default(), own),
            RELEASE => (mark_in(fields), Mark::default()),
            _ => (mark_in(fields), own),
        };
        let act = write.as_ref().map_or(5, |write| 2 + write.side);
        let command = CommandFields {
            act,
            mode: 2,
            card: card as u16,
            pair: verifier,
            update,
            expected,
            next,
            edition: if act == 4 { fields[4] as u16 } else { 0 },
            ..CommandFields::default()
        };
        let line = write.as_ref().map_or(0, |write| write.line as u8);
        let text = write.map_or(Vec::new(), |write| write.text);
        let bytes = command.with_payload(&text);
        if guessed {
            self.steps.books[book].late = Some((card, bytes));
            return self.crash(at);
        }
        self.dispatch(book, card, (step, line), bytes)
    }

    /// The mark of a log, with the transaction of a write or the open one.
    fn own_mark(&self, book: usize, write: Option<u32>) -> Mark {
        let open = || steps::open(&self.steps.books[book].log).map(|(open, _)| open);
        let number = write
            .or_else(open)
            .unwrap_or(self.steps.books[book].transaction);
        Mark::new(owner(book), number.max(1))
    }

    /// The pairs of an order on an x that no answer has shown: far ahead.
    fn guess(&mut self, at: usize, card: usize, pair: Pair) -> Checked<[Pair; 2]> {
        self.desks[at].known[card][1] += 40 << 32;
        let pair = self.propose(at, card, 2)?.unwrap_or(pair);
        Ok([pair, pair])
    }

    /// Where that rule is broken, whether a prepare is sent on a guessed x. It
    /// comes late, and its desk goes down meanwhile.
    fn guesses(&mut self, book: usize) -> bool {
        self.breaks(Rule::OrderGuessed) && self.steps.books[book].late.is_none()
    }

    /// The prepare on a guessed x comes at last: when its card is written out,
    /// released and written by somebody else.
    fn comes_late(&mut self, book: usize, card: usize) {
        let at = self.steps.books[book].mind.at;
        let texts = &self.store.cards[card].texts;
        let due = steps::all_due(&self.steps.books[book].log);
        let mut due = due.iter().rev();
        let last = due.find(|update| usize::from(update.card) == card);
        let since = last.is_some_and(|last| texts[usize::from(last.side) - 1] != last.text);
        let late = self.steps.books[book]
            .late
            .take_if(|(of, _)| *of == card && since);
        if let Some((_, bytes)) = late {
            self.send(at, card, Body::Command(bytes, 0, None));
        }
    }

    /// The verifier and the update pair of an order; where 16.4 is broken, the
    /// last order's pair again.
    fn order_pairs(&mut self, book: usize, card: usize, shown: [u64; 7], pair: Pair) -> [Pair; 2] {
        let last = self.steps.books[book].mind.cards[card].pair;
        match last {
            Some(last) if self.breaks(Rule::OrdersUnderOne) => [last, last],
            _ => [Pair::new(shown[0], shown[1]), pair],
        }
    }

    /// A command of a log's holder is sent; at the end of a town it is judged
    /// at once.
    fn dispatch(&mut self, book: usize, card: usize, step: (u8, u8), bytes: Vec<u8>) -> Checked {
        self.tally.step(Step::Send);
        let at = self.steps.books[book].mind.at;
        let sent = self.on_its_way(step);
        self.steps.books[book].mind.cards[card].sends(sent);
        let (lent, id) = (self.shape.room, Some(sent.id));
        if !self.steps.finishing {
            let twice = self.rule == Some(Rule::OrdersUnderOne) && self.one_in(2);
            for _ in 0..1 + u8::from(twice) {
                self.send(at, card, Body::Command(bytes.clone(), lent, id));
            }
            return Ok(());
        }
        let answer = self.judge(&bytes, lent)?;
        self.learn(at, card, Pair::new(answer.fields[0], answer.fields[1]))?;
        self.followed(at, card, id, &answer)
    }

    fn on_its_way(&mut self, step: (u8, u8)) -> OnItsWay {
        self.steps.ids += 1;
        OnItsWay {
            id: self.steps.ids,
            when: self.now,
            step,
        }
    }

    /// A desk sends a command that is no step: to the logs that it holds it is
    /// a look (rule 16.24). Which command it is.
    pub(super) fn look_sent(&mut self, at: usize, card: usize) -> Option<u64> {
        if self.steps.books.is_empty() {
            return None;
        }
        let (sent, who) = (self.on_its_way((LOOK, 0)), self.desks[at].who);
        minds(&mut self.steps.books, at, who).for_each(|mind| mind.cards[card].sends(sent));
        Some(sent.id)
    }

    /// The answer to a command of a desk: to the logs that it holds it counts
    /// if it is the one that was sent last (rule 16.24).
    pub(super) fn followed(
        &mut self,
        at: usize,
        card: usize,
        id: Option<u64>,
        answer: &Answer,
    ) -> Checked {
        let (who, any) = (self.desks[at].who, self.rule == Some(Rule::EarlierAnswer));
        let (number, mark) = (answer.number, answer.fields[2] as u16);
        for mind in minds(&mut self.steps.books, at, who) {
            let follow = &mut mind.cards[card];
            let earlier = follow.earlier.iter().filter(|_| any);
            let mut sent = follow.last.iter().chain(earlier);
            let Some(sent) = sent.find(|sent| Some(sent.id) == id) else {
                continue;
            };
            let told = self.library.heard(sent.step, number, mark);
            let seen = Seen::upon(sent.step, number, mark);
            steps::heard(&mut self.tally.made, seen, told)?;
            (follow.seen, follow.by_rules, follow.fields) = (told, seen, answer.fields);
        }
        Ok(())
    }

    /// The commit, if every card of the transaction is ready for it.
    fn commit_book(&mut self, book: usize) -> Checked {
        let Some((number, updates)) = steps::open(&self.steps.books[book].log) else {
            return Ok(());
        };
        let cards: BTreeSet<u16> = updates.iter().map(|update| update.card).collect();
        for card in &cards {
            let (step, ..) = self.next_step(book, usize::from(*card))?;
            if step != READY && !self.breaks(Rule::CommitsUnheld) {
                return Ok(());
            }
        }
        if cards.is_empty() {
            return Ok(());
        }
        let stands = self.append_book(book, COMMIT, &number.to_le_bytes())?;
        if stands {
            self.steps.books[book].mind.going = false;
            self.tally.fault(Fault::Committed);
            self.tally
                .fault_if(cards.len() > 1, Fault::CommittedSeveral);
        }
        Ok(())
    }

    /// The holder of a log appends a record, which may be cut at any store.
    fn append_book(&mut self, book: usize, kind: u8, body: &[u8]) -> Checked<bool> {
        let at = self.steps.books[book].mind.at;
        std::mem::swap(&mut self.steps.books[book].log, &mut self.desks[at].log);
        let stands = self.append(at, kind, body);
        std::mem::swap(&mut self.steps.books[book].log, &mut self.desks[at].log);
        self.logged(book);
        let stands = stands?;
        self.all_stand()?;
        Ok(stands)
    }

    /// A log is now as it is.
    fn logged(&mut self, book: usize) {
        if let Some(beside) = &self.steps.beside {
            let log = &self.steps.books[book].log;
            beside.borrow_mut().logged(owner(book), log);
        }
    }

    /// Each card stands as the store has it in which a commit is one step.
    pub(super) fn all_stand(&mut self) -> Checked {
        (0..self.shape.cards).try_for_each(|card| self.stands(card))
    }

    pub(super) fn stands(&mut self, card: usize) -> Checked {
        let Some(beside) = &self.steps.beside else {
            return Ok(());
        };
        let made = &mut self.tally.made;
        beside.borrow_mut().stands(made, &self.image, card)
    }

    /// A command for a card of the store was answered.
    pub(super) fn beside_judged(&mut self, sent: &Sent, answer: &Answer) -> Checked {
        self.beside_heard(sent, answer)?;
        self.stands(sent.card.into())
    }

    /// The store in which a commit is one step hears of a command.
    pub(super) fn beside_heard(&mut self, sent: &Sent, answer: &Answer) -> Checked {
        let Some(beside) = &self.steps.beside else {
            return Ok(());
        };
        let made = &mut self.tally.made;
        beside.borrow_mut().judged(made, sent, answer, &self.reply)
    }

    /// Whoever has the store's bytes at hand recovers from a log, where each
    /// card with something due bears its mark and gets an x above the stored
    /// one (rule 16.13). It may be cut after any of its writes.
    fn recover_book(&mut self, book: usize) -> Checked {
        let due = steps::all_due(&self.steps.books[book].log);
        let cards: BTreeSet<usize> = due.iter().map(|update| update.card.into()).collect();
        let at = self.steps.books[book].mind.at;
        let mut pairs = [vec![0; self.shape.cards], vec![0; self.shape.cards]];
        for card in &cards {
            self.catch_up(at, *card)?;
            let Some(mut pair) = self.propose(at, *card, 2)? else {
                return Ok(());
            };
            if self.breaks(Rule::RecoversStored) {
                pair = self.store.cards[*card].largest;
            }
            (pairs[0][*card], pairs[1][*card]) = (pair.s, pair.x);
        }
        let marked = |card: &usize| self.store.cards[*card].mark.desk == owner(book);
        let marked = cards.iter().all(marked);
        if cards.is_empty() || !marked && !self.breaks(Rule::RecoversUnmarked) {
            return self.some_step(book);
        }
        self.tally.step(Step::Recover);
        self.tally.fault(Fault::RecoveredMarked);
        self.recovering(true);
        let recovered = match self.one_in(3) {
            true => self.cut_recovery_of(at, due, &pairs),
            false => self.recover_from(book, &pairs),
        };
        self.recovering(false);
        recovered?;
        self.steps.books[book].mind.cards.fill(Follow::default());
        self.all_stand()
    }

    fn recovering(&mut self, recovering: bool) {
        if let Some(beside) = &self.steps.beside {
            beside.borrow_mut().recovering = recovering;
        }
    }

    fn recover_from(&mut self, book: usize, pairs: &[Vec<u64>; 2]) -> Checked {
        let at = self.steps.books[book].mind.at;
        std::mem::swap(&mut self.steps.books[book].log, &mut self.desks[at].log);
        let recovered = self.recover_whole(at, pairs);
        std::mem::swap(&mut self.steps.books[book].log, &mut self.desks[at].log);
        recovered.map(|_| ())
    }

    fn cut_recovery_of(&mut self, at: usize, due: Vec<Update>, pairs: &[Vec<u64>; 2]) -> Checked {
        self.desks[at].due = due;
        self.cut_recovery(at, pairs)
    }

    /// The marks of a command that is no order: none. Where 16.3 is broken,
    /// somebody takes a mark off, or puts one on.
    pub(super) fn plain_marks(&mut self, at: usize, card: usize, fields: &mut CommandFields) {
        if self.steps.books.is_empty() {
            return;
        }
        (fields.expected, fields.next) = (Mark::default(), Mark::default());
        let met = self.desks[at].at[card].mark;
        if self.breaks(Rule::MarkTakenOff) && met.desk != 0 {
            (fields.act, fields.edition, fields.expected) = (5, 0, met);
        }
        if self.breaks(Rule::MarkPutOn) {
            let book = self.random.index(self.steps.books.len());
            let number = self.steps.books[book].transaction.max(1);
            (fields.act, fields.edition) = (5, 0);
            fields.next = Mark::new(owner(book), number);
        }
    }

    /// The end of a town of transactions: what is on its way is lost, every
    /// desk starts again, and takes its steps with nobody in between. They end,
    /// after a look, a write for each line, a release and a note (rule 16.28).
    pub(super) fn finish(&mut self) -> Checked {
        let broken = self.rule.is_some_and(|rule| rule != Rule::Unwritable);
        if self.steps.books.is_empty() || broken {
            return Ok(());
        }
        self.post.clear();
        self.steps.finishing = true;
        for book in 0..self.steps.books.len() {
            let Some(start) = self.desks[book].who.start.checked_add(1) else {
                continue;
            };
            let who = DeskId {
                start,
                ..self.desks[book].who
            };
            self.desks[book] = super::Desk::new(who, self.shape);
            self.steps.books[book].mind = Book::new(book, who, 0, self.shape.cards).mind;
            self.steps.books[book].former = None;
            (0..self.shape.cards).try_for_each(|card| self.finish_card(book, card))?;
        }
        self.guests_finish()
    }

    fn finish_card(&mut self, book: usize, card: usize) -> Checked {
        let most = usize::from(self.steps.books[book].log[0]) + 3;
        let mut taken = 0;
        while self.next_step(book, card)?.0 != NOTHING && taken < 2 * most {
            let lines = self.steps.books[book].log[0];
            self.take_step(book, card)?;
            // An append that is cut is made again, by a desk that is up again.
            let cut =
                self.desks[book].state == State::Down && self.steps.books[book].log[0] == lines;
            self.desks[book].state = State::Up;
            taken += usize::from(!cut);
        }
        let due = steps::all_due(&self.steps.books[book].log);
        let due = due.iter().any(|update| usize::from(update.card) == card);
        let marked = self.store.cards[card].mark.desk == owner(book);
        let Some(beside) = &self.steps.beside else {
            return Ok(());
        };
        let ended = taken <= most && !due && !marked;
        let made = &mut self.tally.made;
        beside.borrow_mut().hold(made, Check::StepsEnd, ended, || {
            format!("card {card}: {taken} steps of {most}; due: {due}, marked: {marked}")
        })
    }

    /// A log's next step where nothing is as it should be: any desk's log or a
    /// damaged one, any desk, any card, anything seen.
    pub(super) fn odd_step(&mut self) -> Checked {
        let at = self.random.index(self.desks.len());
        let books = self.steps.books.get(at).map(|book| book.log.clone());
        let mut log = books.unwrap_or_else(|| self.desks[at].log.clone());
        if self.one_in(6) {
            log[0] = log[0].wrapping_add(1);
        }
        let desk = self.random.below(4) as u16;
        let card = self.card() as u16;
        let step = (self.random.below(9) as u8, self.random.below(12) as u8);
        let number = self.random.pick(&[0, 0, 0, 1, 2, 3, 4, 6, 9, 17]);
        // Where no entry is shown, the mark is zero too (rule 4.8).
        let shows = !matches!(number, 1 | 2 | 9);
        let mark = if shows {
            self.random.below(4) as u16
        } else {
            0
        };
        let told = self.library.heard(step, number, mark);
        let seen = Seen::upon(step, number, mark);
        let going = self.one_in(2);
        let next = self.library.next_step(&log, (desk, card), going, &told);
        self.tally.number(Operation::NextStep, next.0);
        let made = &mut self.tally.made;
        steps::heard(made, seen, told)?;
        steps::stepped(made, &log, (desk, card), (going, seen), next)?;
        let before = log.clone();
        let begun = self.library.begin_again(&mut log);
        steps::begun_again(&mut self.tally.made, &before, begun, &log)
    }
}
