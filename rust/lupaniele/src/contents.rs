use crate::bytes::put;
use crate::cards::Card;
use crate::{Broken, BrokenCard, Image, Language, Mark, Pair, Version};

/// What a card holds, apart from any image (rules 2.4 and 15.3): to build an image from its cards, as where one is
/// written by hand.
///
/// ```
/// use lupaniele::{Contents, Image, Pair, Stamp, Version};
/// let stamp = Stamp::new(1, 1, 0);
/// let mut card = Contents { pair: Pair::new(stamp, stamp), edition: 2, original: b"205", ..Contents::default() };
/// card.translations[0] = (1, b"401"); // made from edition 1: behind
/// let image = Image::of_cards(Version::One, 16, &[card, Contents::default()])?;
/// assert_eq!(image.card(0).map(|card| card.contents()), Some(card));
/// # Ok::<(), lupaniele::Broken>(())
/// ```
#[derive(Clone, Copy, Debug, Default, PartialEq, Eq)]
pub struct Contents<'a> {
    /// The pair.
    pub pair: Pair,
    /// The commit mark.
    pub mark: Mark,
    /// How often the original was written.
    pub edition: u16,
    /// The original.
    pub original: &'a [u8],
    /// By language: the edition that the translation was made from, and the translation.
    pub translations: [(u16, &'a [u8]); Language::ALL.len()],
}

impl<'a> Card<'a> {
    /// All that it holds.
    ///
    /// ```
    /// use lupaniele::{Contents, Image, Version};
    /// let image = Image::make(Version::One, 1, 16)?;
    /// assert_eq!(image.card(0).map(|card| card.contents()), Some(Contents::default()));
    /// # Ok::<(), lupaniele::Number>(())
    /// ```
    #[must_use]
    pub fn contents(&self) -> Contents<'a> {
        let translation = |language| {
            let from = self.translated_from(language).unwrap_or(0);
            (from, self.translation(language).unwrap_or(&[]))
        };
        Contents {
            pair: self.pair(),
            mark: self.mark(),
            edition: self.edition(),
            original: self.original(),
            translations: Language::ALL.map(translation),
        }
    }
}

impl Image {
    /// The one image of these cards with that room (rules 2.8 and 15.5).
    ///
    /// # Errors
    ///
    /// The first rule that it would break: whether it is sound is for the store to say.
    ///
    /// ```
    /// use lupaniele::{Broken, Contents, Image, Version};
    /// let unwritten = Contents { original: b"205", ..Contents::default() };
    /// let why = Image::of_cards(Version::One, 16, &[unwritten]).unwrap_err();
    /// assert_eq!(why.to_string(), "card 0: an original stands at edition 0");
    /// assert!(Image::of_cards(Version::One, 60, &[Contents::default()]).is_err());
    /// ```
    pub fn of_cards(version: Version, room: u16, cards: &[Contents]) -> Result<Image, Broken> {
        let count = u16::try_from(cards.len()).unwrap_or(u16::MAX);
        let fresh = Image::make(version, count, room);
        let shape = Broken::Shape { cards: count, room };
        let mut bytes = fresh.map_err(|_| shape)?.into_bytes();
        for (card, contents) in (0..count).zip(cards) {
            let broken = |why| Broken::Card { card, why };
            contents.fit(version, room).map_err(broken)?;
            let parts = contents.parts(&Card::new(version, &bytes, card));
            for (at, part) in parts {
                put(&mut bytes, at, &part);
            }
        }
        Image::check(bytes)
    }
}

impl Contents<'_> {
    /// What has no place in an entry and its bodies.
    fn fit(&self, version: Version, room: u16) -> Result<(), BrokenCard> {
        if self.original.len() > room.into() {
            return Err(BrokenCard::OriginalLong);
        }
        for (language, (from, text)) in Language::ALL.into_iter().zip(self.translations) {
            if text.len() > room.into() {
                return Err(BrokenCard::TranslationLong(language));
            }
            if !version.languages().contains(&language) && (from != 0 || !text.is_empty()) {
                return Err(BrokenCard::NoLanguage(language));
            }
        }
        Ok(())
    }

    /// Its parts, each with its place in the image; each text is at most as long as the room.
    fn parts(&self, card: &Card) -> Vec<(usize, Vec<u8>)> {
        let length = |text: &[u8]| (text.len() as u16).to_le_bytes().to_vec();
        let [s, x] = self.pair.numbers();
        let entry = [
            &s.to_le_bytes()[..],
            &x.to_le_bytes(),
            &self.mark.desk.to_le_bytes(),
            &[0; 2],
            &self.mark.transaction.to_le_bytes(),
            &self.edition.to_le_bytes(),
        ];
        let mut parts = vec![
            (card.entry_place(), entry.concat()),
            (card.length_place(None), length(self.original)),
            (card.body_place(0), self.original.to_vec()),
        ];
        for (language, (from, text)) in Language::ALL.into_iter().zip(self.translations) {
            if card.translated_from(language).is_some() {
                let body = card.body_place(1 + usize::from(language.number()));
                parts.push((
                    card.translated_from_place(language),
                    from.to_le_bytes().to_vec(),
                ));
                parts.push((card.length_place(Some(language)), length(text)));
                parts.push((body, text.to_vec()));
            }
        }
        parts
    }
}
