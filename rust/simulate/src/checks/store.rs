//! The store: demand 3's sentences over the list so far, and every number,
//! field and byte, in either version (rules 2, 4, 9 and 15). Of each card is kept
//! what the sentences ask of its list: the largest accepted pair, the last mark,
//! how often the original was written, and the last texts. A conversion changes
//! nothing of that (rule 15.12).

use second::{Format, Mark, Pair};

use super::formed::{below, formed_as, time_of, Sent};
use super::history::Request;
use super::isolation::Lists;
use super::versions;
use super::{Check, Checked, Made};
use crate::library::Answer;

/// How far a T may be ahead of the stored one (rule 4.9).
pub const AHEAD: u64 = 1_000_000;

/// The accepted commands of one card, as far as the sentences ask.
#[derive(Clone, Debug, Default)]
pub struct Card {
    /// The largest accepted s and x.
    pub largest: Pair,
    /// The mark that the last accepted command left.
    pub mark: Mark,
    /// How many writes of the original were accepted.
    pub edition: u16,
    /// The edition named by the last accepted translation of each language.
    pub from: [u16; 4],
    /// Whether a translation was accepted since the last original, of each
    /// language.
    pub current: [bool; 4],
    /// The last accepted texts: the original, then each language.
    pub texts: [Vec<u8>; 5],
    /// What had been accepted before the conversion: the largest pair, and
    /// whether the translation is still that of then.
    before: Option<(Pair, bool)>,
    lists: Lists,
}

impl Card {
    fn late(&self, sent: &Sent) -> bool {
        below(sent.mode, sent.verifier, self.largest)
    }

    fn far(&self, sent: &Sent) -> bool {
        let far = |new: u64, old: u64| new != 0 && time_of(new) > time_of(old) + AHEAD;
        far(sent.update.s, self.largest.s) || far(sent.update.x, self.largest.x)
    }

    fn right_mark(&self, sent: &Sent) -> bool {
        sent.expected.desk == self.mark.desk && sent.expected.transaction >= self.mark.transaction
    }

    /// Whether the language that a command names is behind (rules 9.3, 15.8).
    fn behind(&self, sent: &Sent) -> bool {
        !self.current[sent.language]
    }

    /// The number of a command for this card (rule 4.1).
    pub(super) fn number(&self, sent: &Sent, room: usize, lent: usize) -> u8 {
        let read = sent.reads().map_or(0, |text| self.texts[text].len());
        let rows = [
            (3, self.late(sent)),
            (17, self.far(sent)),
            (4, !self.right_mark(sent)),
            (5, sent.payload.len() > room),
            (6, sent.act == 2 && self.behind(sent)),
            (6, sent.act == 4 && sent.edition != self.edition),
            (7, sent.act == 3 && self.edition == u16::MAX),
            (8, read > lent),
        ];
        rows.iter()
            .find(|(_, applies)| *applies)
            .map_or(0, |row| row.0)
    }

    /// What an accepted command leaves (rules 4.4, 4.5 and 15.8).
    fn accept(&mut self, sent: &Sent) {
        self.largest.s = self.largest.s.max(sent.update.s);
        self.largest.x = self.largest.x.max(sent.update.x);
        self.mark = sent.next;
        match sent.act {
            3 => (self.edition, self.current) = (self.edition + 1, [false; 4]),
            4 => {
                self.from[sent.language] = sent.edition;
                self.current[sent.language] = true;
            }
            _ => {}
        }
        if let Some(text) = sent.writes() {
            self.texts[text].clear();
            self.texts[text].extend_from_slice(sent.payload);
            if let Some((_, kept)) = self.before.as_mut().filter(|_| text == 1) {
                *kept = false;
            }
        }
    }

    /// The reply fields, as the entry is seen in a language (rules 4.8, 15.8).
    pub(super) fn fields(&self, language: usize, length: usize) -> [u64; 7] {
        [
            self.largest.s,
            self.largest.x,
            self.mark.desk.into(),
            self.mark.transaction.into(),
            self.edition.into(),
            self.from[language].into(),
            length as u64,
        ]
    }
}

/// The store as the list so far has it.
#[derive(Clone, Debug)]
pub struct Store {
    /// Its version.
    pub format: Format,
    /// Each card.
    pub cards: Vec<Card>,
    /// The room of a text.
    pub room: usize,
    /// The bytes that the image must have.
    pub image: Vec<u8>,
    /// Whether desks keep the rules, so that the premise must hold.
    pub by_rules: bool,
    /// Whether the premise was broken, and whether a session was.
    pub broken: [bool; 2],
    /// The requests of version 1 that the history engine has not had yet, where
    /// it is asked.
    pub unheard: Option<Vec<Request>>,
    /// How many sessions went on over the conversion.
    pub crossed: u64,
    judged: u64,
    converted: Option<u64>,
}

impl Store {
    /// A fresh store of version 1 (rules 2.2 to 2.7).
    pub fn new(cards: usize, room: usize, by_rules: bool) -> Store {
        Store::fresh(Format::V1, cards, room, by_rules)
    }

    /// A fresh store (rules 2.2 to 2.7, 15.1 to 15.5).
    pub fn fresh(format: Format, cards: usize, room: usize, by_rules: bool) -> Store {
        Store {
            format,
            cards: vec![Card::default(); cards],
            room,
            image: versions::fresh(format, cards, room),
            by_rules,
            broken: [false; 2],
            unheard: None,
            crossed: 0,
            judged: 0,
            converted: None,
        }
    }

    /// The number that a command of the store's version must get.
    pub fn number(&self, sent: Option<&Sent>, lent: usize) -> u8 {
        let Some(sent) = sent else {
            return 1;
        };
        let card = self.cards.get(usize::from(sent.card));
        card.map_or(2, |card| card.number(sent, self.room, lent))
    }

    /// A well-formed command that names a card of the store.
    fn proper<'a>(&self, sent: Option<Sent<'a>>) -> Option<Sent<'a>> {
        sent.filter(|sent| usize::from(sent.card) < self.cards.len())
    }

    /// Which of two checks is made, by the store's version.
    fn by(&self, one: Check, two: Check) -> Check {
        match self.format {
            Format::V1 => one,
            Format::V2 => two,
        }
    }

    /// One request of version 1 was answered.
    pub fn judged(
        &mut self,
        made: &mut Made,
        bytes: &[u8],
        buffers: (&[u8], &[u8]),
        answer: &Answer,
        image: &[u8],
    ) -> Checked {
        self.judged_as(made, Format::V1, bytes, buffers, answer, image)
    }

    /// One request was answered: the version by which it was sent, its command,
    /// the reply buffer before and after, the answer, and the image after.
    pub fn judged_as(
        &mut self,
        made: &mut Made,
        format: Format,
        bytes: &[u8],
        (lent, reply): (&[u8], &[u8]),
        answer: &Answer,
        image: &[u8],
    ) -> Checked {
        if format != self.format {
            return other_version(made, answer, reply == lent && image == self.image);
        }
        let sent = formed_as(format, bytes);
        let proper = self.proper(sent);
        if let Some(sent) = &proper {
            self.sentences(made, sent, answer.number)?;
            self.shows(made, sent, answer, reply)?;
            self.sessions(made, sent, answer.number == 0)?;
        }
        if answer.number != 0 {
            let unchanged = reply == lent && image == self.image;
            made.hold(Check::RefusedStore, unchanged, || {
                format!("number {}, and bytes are changed", answer.number)
            })?;
        }
        let number = self.number(sent.as_ref(), lent.len());
        let check = self.by(Check::Number, Check::Number2);
        made.same(check, answer.number, number)?;
        let fields = self.take(bytes, proper.as_ref(), number, (lent, reply));
        let check = self.by(Check::Fields, Check::Fields2);
        made.same(check, answer.fields, fields)?;
        behind_text(made, fields[6] as usize, lent, reply)?;
        self.same_image(made, image)
    }

    /// The whole image is as the rules have it.
    pub fn same_image(&self, made: &mut Made, image: &[u8]) -> Checked {
        let check = self.by(Check::Image, Check::Image2);
        made.hold(check, image == self.image, || {
            let at = image.iter().zip(&self.image).position(|(a, b)| a != b);
            format!("the image differs at byte {at:?}")
        })
    }

    /// The sentences of rules 9.2, 9.3 and 9.7, over a conversion too.
    fn sentences(&self, made: &mut Made, sent: &Sent, number: u8) -> Checked {
        let card = &self.cards[usize::from(sent.card)];
        let late = card.late(sent);
        let before = card.before.map_or(Pair::default(), |before| before.0);
        if below(sent.mode, sent.verifier, before) {
            made.hold(Check::AcrossLate, number == 3, || {
                format!("late by what stood before, and the number is {number}")
            })?;
        }
        made.hold(Check::Late, late == (number == 3), || {
            format!("late: {late}, and the number is {number}")
        })?;
        let far = !late && card.far(sent);
        made.hold(Check::Future, far == (number == 17), || {
            format!("from the far future: {far}, and the number is {number}")
        })?;
        if sent.act == 2 && !late && !far && card.right_mark(sent) {
            let behind = card.behind(sent);
            let check = self.by(Check::Behind, Check::Behind2);
            made.hold(check, behind == (number == 6), || {
                format!("behind: {behind}, and the number is {number}")
            })?;
        }
        Ok(())
    }

    /// The sentence of rule 9.4.
    fn shows(&self, made: &mut Made, sent: &Sent, answer: &Answer, reply: &[u8]) -> Checked {
        let (Some(text), 0) = (sent.reads(), answer.number) else {
            return Ok(());
        };
        let card = &self.cards[usize::from(sent.card)];
        let (shown, last) = (
            reply.get(..answer.fields[6] as usize),
            Some(&card.texts[text][..]),
        );
        if text == 1 && card.before.is_some_and(|before| before.1) {
            made.same(Check::AcrossShows, shown, last)?;
        }
        made.same(self.by(Check::Shows, Check::Shows2), shown, last)
    }

    /// The premise and isolation (rules 9.5, 9.6, 10.11, 10.12).
    fn sessions(&mut self, made: &mut Made, sent: &Sent, accepted: bool) -> Checked {
        self.judged += 1;
        let lists = &mut self.cards[usize::from(sent.card)].lists;
        let (premise, speaks) = lists.sent(sent);
        self.broken[0] |= !premise;
        if speaks && self.by_rules {
            made.hold(Check::Premise, premise, || {
                "a shared command carries another desk's x, and its s is not larger".into()
            })?;
        }
        if !accepted {
            return Ok(());
        }
        let earlier = lists.last_of(sent);
        self.crossed += u64::from(earlier < self.converted && earlier.is_some());
        let Some(alone) = lists.accepted(self.judged, sent) else {
            return Ok(());
        };
        self.broken[1] |= !alone;
        if premise {
            made.hold(Check::Isolated, alone, || "another desk was let in".into())?;
        }
        if self.by_rules {
            made.hold(Check::Outright, alone, || "another desk was let in".into())?;
        }
        Ok(())
    }

    /// The reply fields of a command with this number (rule 4.8), which is taken
    /// in if it is accepted; and the history engine is to have it.
    fn take(
        &mut self,
        bytes: &[u8],
        proper: Option<&Sent>,
        number: u8,
        (lent, reply): (&[u8], &[u8]),
    ) -> [u64; 7] {
        let before = proper.map_or([0; 7], |sent| {
            self.cards[usize::from(sent.card)].fields(sent.language, 0)
        });
        let fields = match number {
            0 => proper.map_or([0; 7], |sent| self.accept(sent)),
            _ => before,
        };
        if let Some(unheard) = &mut self.unheard {
            unheard.push(Request {
                command: bytes.to_vec(),
                before,
                answer: Answer { number, fields },
                lent: lent.to_vec(),
                reply: reply.to_vec(),
            });
        }
        fields
    }

    /// Takes in what is accepted, and gives the reply fields (rule 4.8).
    fn accept(&mut self, sent: &Sent) -> [u64; 7] {
        let at = usize::from(sent.card);
        self.cards[at].accept(sent);
        self.store(at, sent.writes());
        let card = &self.cards[at];
        let length = sent.reads().map_or(0, |text| card.texts[text].len());
        card.fields(sent.language, length)
    }

    /// A write that recovery sends, judged and taken in as a request with an
    /// empty reply buffer (rules 11.17, 11.18 and 11.20). Its answer.
    pub fn recovering(&mut self, made: &mut Made, command: &[u8]) -> Checked<Answer> {
        if self.format == Format::V2 {
            return Ok(NOT_SOUND);
        }
        let sent = formed_as(Format::V1, command);
        let proper = self.proper(sent);
        let number = self.number(sent.as_ref(), 0);
        if let Some(sent) = &proper {
            self.sessions(made, sent, number == 0)?;
        }
        let fields = self.take(command, proper.as_ref(), number, (&[], &[]));
        Ok(Answer { number, fields })
    }

    /// A command of a run with its line, judged and taken in; the reply buffer
    /// is then as the rules have it (rules 8.5 and 8.7).
    pub fn in_run(
        &mut self,
        made: &mut Made,
        format: Format,
        bytes: &[u8],
        line: &Answer,
        reply: &mut [u8],
    ) -> Checked {
        if format != self.format {
            return made.same(Check::RunLines, *line, NOT_SOUND);
        }
        let sent = formed_as(format, bytes);
        let proper = self.proper(sent);
        let number = self.number(sent.as_ref(), reply.len());
        made.same(Check::RunLines, line.number, number)?;
        if let Some(sent) = &proper {
            self.sentences(made, sent, number)?;
            self.sessions(made, sent, number == 0)?;
        }
        let lent = reply.to_vec();
        if let (Some((sent, text)), 0) = (read_by(proper.as_ref()), number) {
            let text = &self.cards[usize::from(sent.card)].texts[text];
            reply[..text.len()].copy_from_slice(text);
        }
        let fields = self.take(bytes, proper.as_ref(), number, (&lent, reply));
        made.same(Check::RunLines, line.fields, fields)
    }

    /// The command of an update under a pair (rule 11.17).
    pub fn write_of(&self, update: &super::log::Update, pair: Pair) -> Vec<u8> {
        let card = self.cards.get(usize::from(update.card));
        let (mark, edition) = card.map_or_else(Default::default, |card| (card.mark, card.edition));
        update.command(mark, edition, pair)
    }

    /// Stores a card's entry, and the text that was written, in the image
    /// (rules 2.4 and 2.5, 15.3 and 15.4).
    fn store(&mut self, at: usize, written: Option<usize>) {
        let (format, shape) = (self.format, (self.cards.len(), self.room));
        versions::put_entry(format, &mut self.image, at, &self.cards[at]);
        if let Some(text) = written {
            let bytes = &self.cards[at].texts[text];
            versions::put_text(format, &mut self.image, shape, (at, text), bytes);
        }
    }

    /// The store becomes one of version 2, with the same cards (rule 15.9).
    pub fn convert(&mut self) {
        self.image = versions::image_of(&self.cards, self.room);
        self.format = Format::V2;
        self.converted = Some(self.judged + 1);
        self.unheard = None;
        for card in &mut self.cards {
            card.before = Some((card.largest, true));
        }
    }
}

/// Behind so many bytes of text the reply buffer is as it was (rule 4.7).
fn behind_text(made: &mut Made, text: usize, lent: &[u8], reply: &[u8]) -> Checked {
    made.hold(Check::Reply, reply[text..] == lent[text..], || {
        format!("behind {text} bytes of text the reply buffer is changed")
    })
}

/// The answer where the image is not a sound one of the version by which it is
/// asked (rules 4.1, 4.8 and 15.13).
pub const NOT_SOUND: Answer = Answer {
    number: 9,
    fields: [0; 7],
};

/// A request of the other version was answered; whether image and reply buffer
/// are the same after it.
fn other_version(made: &mut Made, answer: &Answer, same: bool) -> Checked {
    made.hold(Check::OtherVersion, same && *answer == NOT_SOUND, || {
        format!("{answer:?}; the bytes are the same: {same}")
    })
}

/// A command that reads, and the text that it reads.
fn read_by<'a, 'b>(proper: Option<&'a Sent<'b>>) -> Option<(&'a Sent<'b>, usize)> {
    proper.and_then(|sent| Some((sent, sent.reads()?)))
}
