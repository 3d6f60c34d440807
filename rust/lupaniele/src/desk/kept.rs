use crate::{Action, Answer, Command, DeskId, Held, Known, Language, Mark, Mode, Number, Pair};

use super::{Failed, NotShown, Seen};

/// What a desk keeps of one card.
#[derive(Clone, Debug)]
pub(super) struct Kept {
    /// What it knows, and proposes from (rules 10.1 to 10.7).
    pub(super) known: Known,
    /// The pair that the guard last showed; none until it did.
    pub(super) shown: Option<Pair>,
    /// The commit mark that the guard last showed.
    pub(super) mark: Mark,
    /// What it has seen of the card (rule 16.24).
    pub(super) seen: Seen,
    /// The largest edition that the guard showed.
    pub(super) edition: u16,
    /// The mode and the pair under which it stands in the card's queue.
    pub(super) asked: Option<(Mode, Pair)>,
    /// The original that it holds, with its edition.
    original: Option<(u16, Vec<u8>)>,
    /// The translations that it holds, each with the edition that it was made from.
    translations: [Option<(u16, Vec<u8>)>; 4],
}

impl Kept {
    pub(super) fn nothing(id: DeskId) -> Kept {
        Kept {
            known: Known::nothing(id),
            shown: None,
            mark: Mark::NONE,
            seen: Seen::NOTHING,
            edition: 0,
            asked: None,
            original: None,
            translations: [const { None }; 4],
        }
    }

    /// It proposes a pair, and learns it.
    pub(super) fn propose<E>(&mut self, mode: Mode) -> Result<Pair, Failed<E>> {
        self.known.propose(mode).map_err(Failed::NoPair)
    }

    /// It learns from an answer, whatever it is; from an accepted one also the text.
    pub(super) fn hear(&mut self, command: &Command, answer: &Answer, reply: &[u8]) {
        // These three show no entry (rule 4.8).
        if matches!(
            answer.number,
            Number::Unsound | Number::Malformed | Number::NoCard
        ) {
            return;
        }
        self.known.learn(answer.pair);
        self.shown = Some(answer.pair);
        self.mark = answer.mark;
        self.edition = self.edition.max(answer.edition); // it never falls
        if !answer.is_accepted() {
            return;
        }
        let from = answer.translated_from;
        match command.action {
            Action::ReadOriginal => self.original = Some((answer.edition, reply.to_vec())),
            Action::WriteOriginal(text) => self.original = Some((answer.edition, text.to_vec())),
            Action::ReadTranslation(language) => self.hold(language, from, reply),
            Action::WriteTranslation { language, text, .. } => self.hold(language, from, text),
            Action::Verify => {}
        }
    }

    fn hold(&mut self, language: Language, from: u16, text: &[u8]) {
        self.translations[usize::from(language.number())] = Some((from, text.to_vec()));
    }

    /// What it holds as rule 6.1 has it: the buffers filled, the edition the last that it heard of.
    fn held<'a>(&'a self, translation: &'a [u8], from: u16) -> Held<'a> {
        let original = self.original.as_ref().map_or(&[][..], |(_, text)| text);
        Held::new(original, translation, self.edition, from)
    }

    pub(super) fn shown_original(&self) -> Result<&[u8], NotShown> {
        match &self.original {
            Some((edition, _)) if *edition == self.edition => {}
            _ => return Err(NotShown::NotRead),
        }
        self.held(&[], 0).original().map_err(NotShown::Refused)
    }

    pub(super) fn shown_translation(&self, language: Language) -> Result<&[u8], NotShown> {
        let held = &self.translations[usize::from(language.number())];
        let (from, text) = held.as_ref().ok_or(NotShown::NotRead)?;
        self.held(text, *from)
            .translation()
            .map_err(NotShown::Refused)
    }
}
