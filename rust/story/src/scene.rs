//! What happened in a step: the one form from which stories and the simulation are told and drawn.

use lupaniele::{
    Answer, Card, Command, DeskId, Image, Language, Lease, Mark, Mode, Number, Pair, Version,
};

use crate::Event;

/// How a translation stands beside its original.
#[derive(Clone, Copy, Debug, PartialEq, Eq, PartialOrd, Ord)]
pub enum Translated {
    /// There is no original yet.
    Nothing,
    /// There is none yet.
    Not,
    /// The original was written so many times since.
    Behind(u16),
    /// It may be shown.
    Current,
}

/// How a card stands in the store.
#[derive(Clone, Debug, Default, PartialEq, Eq)]
pub struct Standing {
    /// The edition of its original.
    pub edition: u16,
    /// Its translations, by language.
    pub translations: Vec<Translated>,
    /// Its commit mark.
    pub mark: Mark,
}

impl From<Card<'_>> for Standing {
    fn from(card: Card) -> Standing {
        let languages = Language::ALL.iter();
        Standing {
            edition: card.edition(),
            translations: languages
                .filter_map(|language| translated(&card, *language))
                .collect(),
            mark: card.mark(),
        }
    }
}

/// How a translation of a card stands; none where the image does not have the language. Whether it is behind is for
/// the library to say.
fn translated(card: &Card, language: Language) -> Option<Translated> {
    let from = card.translated_from(language)?;
    Some(match (card.shown(language), card.edition(), from) {
        (Ok(_), _, _) => Translated::Current,
        (Err(_), 0, _) => Translated::Nothing,
        (Err(_), _, 0) => Translated::Not,
        (Err(_), edition, from) => Translated::Behind(edition.saturating_sub(from)),
    })
}

/// How every card of an image stands.
pub fn standings<B: AsRef<[u8]>>(image: &Image<B>) -> Vec<Standing> {
    image.cards().map(Standing::from).collect()
}

/// What names a session (rule 1.6).
#[derive(Clone, Copy, Debug, PartialEq, Eq)]
pub struct Session {
    /// Its desk.
    pub desk: DeskId,
    /// Its card.
    pub card: u16,
    /// Its mode.
    pub mode: Mode,
    /// Its pair.
    pub pair: Pair,
}

/// A command that the store judged.
#[derive(Clone, Debug, PartialEq, Eq)]
pub struct Judged {
    /// The store's version.
    pub version: Version,
    /// The command's bytes.
    pub command: Vec<u8>,
    /// The answer.
    pub answer: Answer,
    /// The text that an accepted read showed.
    pub shown: Vec<u8>,
    /// Why, in words: what is stored against what was sent.
    pub because: String,
    /// The command's card before it, if there is such a card.
    pub before: Option<Standing>,
    /// And after it.
    pub after: Option<Standing>,
}

impl Judged {
    /// A command and its answer, with the text that an accepted read showed and the image before and after it.
    pub fn new<A: AsRef<[u8]>, B: AsRef<[u8]>>(
        version: Version,
        command: &[u8],
        answer: Answer,
        shown: &[u8],
        before: Option<&Image<A>>,
        after: Option<&Image<B>>,
    ) -> Judged {
        let card = Command::parse(version, command).map(|command| command.card);
        let stood = before.and_then(|image| image.card(card.ok()?));
        let stands = after.and_then(|image| image.card(card.ok()?));
        Judged {
            version,
            command: command.to_vec(),
            answer,
            shown: shown.to_vec(),
            because: forms::told(version, command, &answer, stood.as_ref()).because,
            before: stood.map(Standing::from),
            after: stands.map(Standing::from),
        }
    }

    /// The command, where its bytes are one.
    pub fn command(&self) -> Option<Command<'_>> {
        Command::parse(self.version, &self.command).ok()
    }

    /// The session of the command.
    pub fn session(&self) -> Option<Session> {
        let command = self.command()?;
        Some(Session {
            desk: command.desk_id(),
            card: command.card,
            mode: command.mode,
            pair: command.update_pair(),
        })
    }
}

/// A text that another one took the place of.
#[derive(Clone, Debug, PartialEq, Eq)]
pub struct Change {
    /// The card.
    pub card: u16,
    /// The language of a translation; none for the original.
    pub language: Option<Language>,
    /// The text that stands there now.
    pub text: Vec<u8>,
    /// How the card stands now.
    pub after: Standing,
}

/// What was written on the cards of an image since it was as it is in another: an original has another edition, a
/// translation is made from another edition or has another text.
pub fn changes<A: AsRef<[u8]>, B: AsRef<[u8]>>(before: &Image<A>, now: &Image<B>) -> Vec<Change> {
    let mut changes = Vec::new();
    for (old, new) in before.cards().zip(now.cards()) {
        let mut change = |language: Option<Language>, text: &[u8]| {
            changes.push(Change {
                card: new.number(),
                language,
                text: text.to_vec(),
                after: Standing::from(new),
            });
        };
        if old.edition() != new.edition() {
            change(None, new.original());
        }
        for language in Language::ALL {
            let of = |card: &Card| card.translated_from(language);
            let text = new.translation(language).unwrap_or_default();
            if of(&old) != of(&new) || old.translation(language).unwrap_or_default() != text {
                change(Some(language), text);
            }
        }
    }
    changes
}

/// Who stands in a queue, the first in front.
pub type Waiting = Vec<(Mode, DeskId)>;

/// What happened.
#[derive(Clone, Debug, PartialEq)]
#[allow(missing_docs)] // each field is what its name says
pub enum Scene {
    /// The store judged a command.
    Judged(Judged),
    /// A desk asked in a queue, or for more than it has there; the queue's largest pair is then this one.
    Asked {
        desk: DeskId,
        card: u16,
        mode: Mode,
        pair: Pair,
        upgrade: bool,
        number: Number,
        holds: bool,
        largest: Pair,
        queue: Waiting,
    },
    /// A desk left a queue, or was taken out of it by its lease.
    Left {
        desk: DeskId,
        card: u16,
        lease: Option<Lease>,
        number: Number,
        queue: Waiting,
    },
    /// A queue begins, empty, with so many places.
    QueueBegan { card: u16, places: u64 },
    /// A desk appended a record to its log; `cut` says after how many stores the power failed, `records` how many the
    /// log has now.
    Logged {
        desk: DeskId,
        kind: u8,
        body: Vec<u8>,
        cut: Option<u64>,
        number: Number,
        records: u8,
    },
    /// A desk went down.
    Down { desk: DeskId },
    /// A desk fell silent.
    Silent { desk: DeskId },
    /// A desk started.
    Started { desk: DeskId },
    /// A desk ran a recovery, which left these changes; if a write was refused, `line` is its record.
    Recovered {
        desk: DeskId,
        pairs: Vec<(u16, Pair)>,
        number: Number,
        line: usize,
        changes: Vec<Change>,
    },
    /// The store was converted to version 2; its cards stand so now.
    Converted {
        number: Number,
        after: Vec<Standing>,
    },
    /// Anything else, in words.
    Said(String),
}

impl Scene {
    /// The desk that it is about; desk 0 is nobody.
    pub fn desk(&self) -> Option<DeskId> {
        match self {
            Scene::Judged(judged) => Some(
                judged
                    .session()
                    .map_or(DeskId::default(), |session| session.desk),
            ),
            Scene::Asked { desk, .. }
            | Scene::Left { desk, .. }
            | Scene::Logged { desk, .. }
            | Scene::Down { desk }
            | Scene::Silent { desk }
            | Scene::Started { desk }
            | Scene::Recovered { desk, .. } => Some(*desk),
            Scene::QueueBegan { .. } | Scene::Converted { .. } | Scene::Said(_) => None,
        }
    }

    /// What was to happen; none where that is no event.
    pub fn event(&self) -> Option<Event> {
        Some(match self.clone() {
            Scene::Judged(judged) => Event::Command {
                version: judged.version,
                bytes: judged.command,
            },
            Scene::Asked { .. } | Scene::Left { .. } => return self.at_queue(),
            Scene::QueueBegan { card, places } => Event::Queue { card, places },
            Scene::Logged {
                desk,
                kind,
                body,
                cut,
                ..
            } => Event::Log {
                desk,
                kind,
                body,
                cut,
            },
            Scene::Down { desk } => Event::Down(desk),
            Scene::Silent { desk } => Event::Silent(desk),
            Scene::Started { desk } => Event::Start(desk),
            Scene::Recovered { desk, pairs, .. } => Event::Recover(desk, pairs),
            Scene::Converted { .. } => Event::Convert,
            Scene::Said(_) => return None,
        })
    }

    /// The same of a desk at a queue.
    fn at_queue(&self) -> Option<Event> {
        Some(match *self {
            Scene::Asked {
                desk,
                card,
                mode,
                pair,
                upgrade,
                ..
            } => Event::Ask {
                desk,
                card,
                mode,
                pair,
                upgrade,
            },
            Scene::Left {
                desk, card, lease, ..
            } => match lease {
                None => Event::Leave { desk, card },
                Some(lease) => Event::Lapse { desk, card, lease },
            },
            _ => return None,
        })
    }

    /// Whether what was asked for was done; none where nothing was asked.
    pub fn number(&self) -> Option<Number> {
        match self {
            Scene::Judged(judged) => Some(judged.answer.number),
            Scene::Asked { number, .. }
            | Scene::Left { number, .. }
            | Scene::Logged { number, .. }
            | Scene::Recovered { number, .. }
            | Scene::Converted { number, .. } => Some(*number),
            _ => None,
        }
    }
}
