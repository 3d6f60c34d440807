//! The sentences of demand 3, evaluated over a list of events: what was sent,
//! what was answered, and the reply buffers. Nothing here looks at an image.

use second::stamp::desk_and_start;
use second::{Act, Command, Format, Language, Mark, Mode, Pair};

use crate::coverage::{Kind, Run};
use crate::proved::Answer;

/// One request as its sender sees it.
#[derive(Clone, Debug)]
pub struct Event {
    /// The version of the store that it was sent to.
    pub format: Format,
    /// The lent bytes of the command.
    pub command: Vec<u8>,
    /// The reply buffer as it was lent.
    pub lent: Vec<u8>,
    /// The answer's number.
    pub number: u8,
    /// The length field of the answer.
    pub length: usize,
    /// The reply buffer afterwards.
    pub reply: Vec<u8>,
}

impl Event {
    /// What a sender sees of a request and its answer.
    pub fn new(format: Format, command: &[u8], lent: Vec<u8>, told: Answer, reply: &[u8]) -> Event {
        Event {
            format,
            command: command.to_vec(),
            lent,
            number: told.number,
            length: told.fields[6] as usize,
            reply: reply.to_vec(),
        }
    }
}

/// A list of events, its commands parsed once.
struct List<'a> {
    events: &'a [Event],
    commands: Vec<Option<Command<'a>>>,
}

impl<'a> List<'a> {
    fn new(events: &'a [Event]) -> List<'a> {
        let commands = events
            .iter()
            .map(|event| Command::parse(event.format, &event.command));
        List {
            events,
            commands: commands.collect(),
        }
    }

    /// The command at a place if it is accepted.
    fn accepted(&self, at: usize) -> Option<&Command<'a>> {
        self.commands[at]
            .as_ref()
            .filter(|_| self.events[at].number == 0)
    }

    /// The earlier accepted commands for a card, the last one first.
    fn earlier(&self, at: usize, card: u16) -> impl Iterator<Item = &Command<'a>> {
        let accepted = (0..at)
            .rev()
            .filter_map(move |before| self.accepted(before));
        accepted.filter(move |command| command.card == card)
    }

    /// Whether a command is stale by what was accepted before (rule 9.2).
    fn late(&self, at: usize, command: &Command) -> bool {
        self.earlier(at, command.card).any(|before| {
            let (before, verifier) = (before.update, command.verifier);
            let larger_s = before.s > verifier.s;
            before.x > verifier.x || command.mode == Mode::Exclusive && larger_s
        })
    }

    /// Whether a command is from too far ahead by what was accepted before
    /// (rule 9.7); where that is nothing, by a T above 1,000,000.
    fn far_ahead(&self, at: usize, command: &Command) -> bool {
        let far = |side: fn(Pair) -> u64| {
            let before = self.earlier(at, command.card);
            let largest = before.map(|before| side(before.update) >> 32).max();
            let own = side(command.update);
            own != 0 && own >> 32 > largest.unwrap_or(0) + 1_000_000
        };
        far(|pair| pair.s) || far(|pair| pair.x)
    }

    /// Whether the expected mark is right by what was accepted before (rule
    /// 9.3).
    fn right_mark(&self, at: usize, command: &Command) -> bool {
        let last = self.earlier(at, command.card).next();
        let stored = last.map_or(Mark::default(), |before| before.next);
        command.expected.desk == stored.desk && command.expected.transaction >= stored.transaction
    }

    /// Whether the translation into this language is behind by the list (rule
    /// 9.3): none was accepted since an original was, or at all.
    fn behind(&self, at: usize, card: u16, language: u8) -> bool {
        let since = self
            .earlier(at, card)
            .take_while(|before| before.act != Act::Write(Language::Original));
        !since
            .into_iter()
            .any(|before| before.act == Act::Write(Language::Translation(language)))
    }

    /// The text that a read of a card and language is to show (rule 9.4), if
    /// one was written.
    fn last_written(&self, at: usize, card: u16, language: Language) -> Option<&[u8]> {
        let mut earlier = self.earlier(at, card);
        earlier
            .find(|before| before.act == Act::Write(language))
            .map(|before| before.payload)
    }

    /// The well-formed commands for a card, refused ones too.
    fn sent_for(&self, card: u16) -> impl Iterator<Item = &Command<'a>> {
        self.commands
            .iter()
            .flatten()
            .filter(move |command| command.card == card)
    }

    /// The places of the accepted commands for a card.
    fn accepted_for(&self, card: u16) -> Vec<usize> {
        let places = 0..self.events.len();
        let of_card = |at: &usize| self.accepted(*at).is_some_and(|one| one.card == card);
        places.filter(of_card).collect()
    }

    /// The exclusive commands for a card under a stamp, by their update pairs,
    /// refused ones too.
    fn under(&self, card: u16, stamp: u64) -> impl Iterator<Item = &Command<'a>> {
        self.sent_for(card)
            .filter(move |other| other.mode == Mode::Exclusive && other.update.x == stamp)
    }

    /// Whether the premise holds for a card (rule 9.5), and whether it binds
    /// any command at all.
    fn premise(&self, card: u16) -> (bool, bool) {
        let mut carried = self.sent_for(card).filter(|command| carries(command));
        let holds = carried.all(|shared| {
            self.under(card, shared.update.x)
                .all(|other| shared.update.s > other.update.s)
        });
        (holds, self.sent_for(card).any(carries))
    }
}

/// Whether the premise binds a command (rule 9.5): it is shared, and its x is a
/// stamp of another desk than its s.
fn carries(command: &Command) -> bool {
    let (mode, pair) = (&command.mode, command.update);
    *mode == Mode::Shared && pair.x != 0 && desk_and_start(pair.x) != desk_and_start(pair.s)
}

/// Whether the premise holds for a card of a list (rule 9.5).
pub fn premise(events: &[Event], card: u16) -> bool {
    List::new(events).premise(card).0
}

/// Whether the premise binds some command for a card, and some exclusive
/// command has the same x.
pub fn premise_speaks(events: &[Event], card: u16) -> bool {
    let list = List::new(events);
    let mut carried = list.sent_for(card).filter(|command| carries(command));
    carried.any(|shared| list.under(card, shared.update.x).next().is_some())
}

/// How many pairs of one session there are, if all are isolated, whether the
/// premise holds or not.
pub fn isolated_outright(cards: u16, events: &[Event]) -> Result<usize, String> {
    let list = List::new(events);
    let mut pairs = 0;
    for card in 0..cards {
        let accepted = list.accepted_for(card);
        for (place, &first) in accepted.iter().enumerate() {
            for &second in &accepted[place + 1..] {
                let told = between(&list, (first, second));
                pairs += usize::from(told.is_some());
                if let Some(Between {
                    let_in: Some(at), ..
                }) = told
                {
                    return Err(let_in(at, first, second));
                }
            }
        }
    }
    Ok(pairs)
}

/// Evaluates every sentence on a list from a fresh image of so many cards,
/// and counts how often each spoke.
pub fn holds(cards: u16, events: &[Event], run: &mut Run) -> Result<(), String> {
    let list = List::new(events);
    for at in 0..events.len() {
        let told = |sentence: &str| format!("{sentence}, at command {at} of the list");
        let formed = list.commands[at].as_ref();
        if let Some(command) = formed.filter(|command| command.card < cards) {
            staleness(&list, at, command, run).map_err(told)?;
            aheadness(&list, at, command, run).map_err(told)?;
            behindness(&list, at, command, run).map_err(told)?;
        }
        showing(&list, at, run).map_err(told)?;
    }
    (0..cards).try_for_each(|card| isolation(&list, card, run))
}

/// Counts a kind by whether something is so, and says what does not hold.
fn spoken(
    run: &mut Run,
    kind: Kind,
    so: bool,
    holds: bool,
    sentence: &'static str,
) -> Result<(), &'static str> {
    run.seen_at(kind, usize::from(!so));
    match holds {
        true => Ok(()),
        false => Err(sentence),
    }
}

fn staleness(list: &List, at: usize, command: &Command, run: &mut Run) -> Result<(), &'static str> {
    let late = list.late(at, command);
    let holds = late == (list.events[at].number == 3);
    let sentence = "refused as stale exactly when it comes late";
    spoken(run, Kind::Late, late, holds, sentence)
}

fn aheadness(list: &List, at: usize, command: &Command, run: &mut Run) -> Result<(), &'static str> {
    if list.late(at, command) {
        return Ok(());
    }
    let far = list.far_ahead(at, command);
    let holds = far == (list.events[at].number == 17);
    let sentence = "in time, refused with 17 exactly when it comes from too far ahead";
    spoken(run, Kind::Ahead, far, holds, sentence)
}

fn behindness(
    list: &List,
    at: usize,
    command: &Command,
    run: &mut Run,
) -> Result<(), &'static str> {
    let Act::Read(Language::Translation(language)) = command.act else {
        return Ok(());
    };
    if list.late(at, command) || !list.right_mark(at, command) {
        return Ok(());
    }
    let behind = list.behind(at, command.card, language);
    if list.events[at].format == Format::V2 {
        run.seen_at(Kind::BehindBy, usize::from(language));
        let other = |other| other != language && list.behind(at, command.card, other) != behind;
        if (0..4).any(other) {
            run.seen_at(Kind::BehindBeside, usize::from(!behind));
        }
    }
    if list.far_ahead(at, command) {
        run.seen_at(Kind::AheadRead, usize::from(!behind));
        return Ok(());
    }
    let holds = behind == (list.events[at].number == 6);
    let sentence = "a translation's read is refused as behind exactly when it is behind";
    spoken(run, Kind::Behind, behind, holds, sentence)
}

fn showing(list: &List, at: usize, run: &mut Run) -> Result<(), &'static str> {
    let event = &list.events[at];
    let written = match list.accepted(at).map(|command| (command.act, command.card)) {
        Some((Act::Read(language), card)) => list.last_written(at, card, language),
        _ => return Ok(()),
    };
    let holds = event.reply.get(..event.length) == Some(written.unwrap_or_default());
    let sentence = "an accepted read shows the payload of the last accepted write";
    spoken(run, Kind::Shown, written.is_some(), holds, sentence)
}

fn isolation(list: &List, card: u16, run: &mut Run) -> Result<(), String> {
    let (premise, carries) = list.premise(card);
    if carries || !premise {
        run.seen_at(Kind::Premise, usize::from(!premise));
    }
    let accepted = list.accepted_for(card);
    for (place, &first) in accepted.iter().enumerate() {
        for &second in &accepted[place + 1..] {
            isolated(list, premise, (first, second), run)?;
        }
    }
    Ok(())
}

/// What other desks sent for a session's card, between two of its accepted
/// commands (rule 9.6).
#[derive(Default)]
struct Between {
    /// A command was accepted that does not go together with them.
    let_in: Option<usize>,
    /// How many were.
    intruders: usize,
    /// One that does not go together with them was refused.
    barred: bool,
    /// A shared one was accepted between shared ones.
    together: bool,
}

/// The same for two accepted commands, if they have one session.
fn between(list: &List, (first, second): (usize, usize)) -> Option<Between> {
    let (a, b) = (list.accepted(first)?, list.accepted(second)?);
    if a.session() != b.session() {
        return None;
    }
    let mut found = Between::default();
    for at in first + 1..second {
        let Some(other) = list.commands[at].as_ref() else {
            continue;
        };
        if other.card != b.card || other.desk == b.desk {
            continue;
        }
        let intrudes = b.mode == Mode::Exclusive || other.mode == Mode::Exclusive;
        match (list.events[at].number == 0, intrudes) {
            (true, true) => {
                found.let_in = found.let_in.or(Some(at));
                found.intruders += 1;
            }
            (true, false) => found.together = true,
            (false, intrudes) => found.barred |= intrudes,
        }
    }
    Some(found)
}

fn let_in(at: usize, first: usize, second: usize) -> String {
    format!("command {at} was accepted between {first} and {second}, one session of another desk")
}

/// Holds two accepted commands to rule 9.6, if they have one session.
fn isolated(
    list: &List,
    premise: bool,
    (first, second): (usize, usize),
    run: &mut Run,
) -> Result<(), String> {
    let Some(found) = between(list, (first, second)) else {
        return Ok(());
    };
    if !premise {
        (0..found.intruders).for_each(|_| run.seen(Kind::LetIn));
        return Ok(());
    }
    if let Some(at) = found.let_in {
        return Err(format!("under the premise, {}", let_in(at, first, second)));
    }
    run.seen(Kind::Isolated);
    let came = [found.barred, found.together].into_iter().enumerate();
    came.filter(|(_, came)| *came)
        .for_each(|(at, _)| run.seen_at(Kind::Between, at));
    Ok(())
}
