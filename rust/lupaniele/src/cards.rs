use crate::bytes::{slice_at, u16_at, u32_at, u64_at};
use crate::{Held, Language, Mark, Number, Pair, Version};

/// The bytes of an image's header.
pub(crate) const HEADER: usize = 16;

/// One card of a sound image, as it stands there: its entry and its texts.
///
/// ```
/// use lupaniele::{Command, Image, Language, Number, Pair, Stamp, Version};
///
/// let mut image = Image::make(Version::One, 1, 16)?;
/// let stamp = Stamp::new(1, 1, 0);
/// let pair = Pair::new(stamp, stamp);
/// image.answer(&Command::write_original(0, b"205").exclusive(pair), &mut [])?.accepted()?;
/// image.answer(&Command::write_translation(0, Language::First, 1, b"401").exclusive(pair), &mut [])?.accepted()?;
/// image.answer(&Command::write_original(0, b"206").exclusive(pair), &mut [])?.accepted()?;
///
/// let card = image.card(0).ok_or("no card")?;
/// assert_eq!((card.pair(), card.edition()), (pair, 2));
/// assert_eq!(card.original(), b"206");
/// assert_eq!(card.translation(Language::First), Some(&b"401"[..])); // stands there
/// assert_eq!(card.shown(Language::First), Err(Number::EditionWrong)); // and is not to be shown
/// # Ok::<(), Box<dyn std::error::Error>>(())
/// ```
#[derive(Clone, Copy, Debug)]
pub struct Card<'a> {
    version: Version,
    image: &'a [u8],
    card: u16,
}

impl<'a> Card<'a> {
    pub(crate) fn new(version: Version, image: &'a [u8], card: u16) -> Card<'a> {
        Card {
            version,
            image,
            card,
        }
    }

    /// Its number, from 0.
    ///
    /// ```
    /// use lupaniele::{Image, Version};
    /// let image = Image::make(Version::One, 1, 16)?;
    /// let card = image.card(0).unwrap();
    /// assert_eq!(card.number(), 0);
    /// # Ok::<(), lupaniele::Number>(())
    /// ```
    #[must_use]
    pub fn number(&self) -> u16 {
        self.card
    }

    /// Where its entry begins (rules 2.4 and 15.3).
    pub(crate) fn entry_place(&self) -> usize {
        HEADER + self.version.entry_bytes() * usize::from(self.card)
    }

    /// Its entry, in bytes.
    pub(crate) fn entry(&self) -> &'a [u8] {
        slice_at(self.image, self.entry_place(), self.version.entry_bytes())
    }

    /// The room of each of its texts.
    ///
    /// ```
    /// use lupaniele::{Image, Version};
    /// let image = Image::make(Version::One, 1, 16)?;
    /// assert_eq!(image.card(0).map(|card| card.room()), Some(16));
    /// # Ok::<(), lupaniele::Number>(())
    /// ```
    #[must_use]
    pub fn room(&self) -> u16 {
        u16_at(self.image, 8)
    }

    /// Where the body of its text at a place begins: 0 the original, then the translations (rules 2.5 and 15.4).
    pub(crate) fn body_place(&self, at: usize) -> usize {
        let cards = usize::from(u16_at(self.image, 6));
        let entries = self.version.entry_bytes() * cards;
        let bodies = 1 + self.version.languages().len();
        let place = bodies * usize::from(self.card) + at;
        HEADER + entries + place * usize::from(self.room())
    }

    /// The whole body of its text at a place.
    pub(crate) fn body(&self, at: usize) -> &'a [u8] {
        slice_at(self.image, self.body_place(at), self.room().into())
    }

    /// Where the edition that a translation was made from stands.
    pub(crate) fn translated_from_place(&self, language: Language) -> usize {
        self.entry_place()
            + match self.version {
                Version::One => 26,
                Version::Two => 28 + 2 * usize::from(language.number()),
            }
    }

    /// Where the length of the original stands, or of a translation.
    pub(crate) fn length_place(&self, language: Option<Language>) -> usize {
        let at = language.map(|language| 2 * usize::from(language.number()));
        self.entry_place()
            + match (self.version, at) {
                (Version::One, None) => 28,
                (Version::One, Some(_)) => 30,
                (Version::Two, None) => 26,
                (Version::Two, Some(at)) => 36 + at,
            }
    }

    /// Whether its version has a language.
    fn has(&self, language: Language) -> bool {
        self.version.languages().contains(&language)
    }

    /// The stored pair.
    ///
    /// ```
    /// use lupaniele::{Image, Pair, Version};
    /// let image = Image::make(Version::One, 1, 16)?;
    /// let card = image.card(0).unwrap();
    /// assert_eq!(card.pair(), Pair::NONE);
    /// # Ok::<(), lupaniele::Number>(())
    /// ```
    #[must_use]
    pub fn pair(&self) -> Pair {
        Pair::of([u64_at(self.entry(), 0), u64_at(self.entry(), 8)])
    }

    /// The stored commit mark.
    ///
    /// ```
    /// use lupaniele::{Image, Mark, Version};
    /// let image = Image::make(Version::One, 1, 16)?;
    /// let card = image.card(0).unwrap();
    /// assert_eq!(card.mark(), Mark::NONE);
    /// # Ok::<(), lupaniele::Number>(())
    /// ```
    #[must_use]
    pub fn mark(&self) -> Mark {
        Mark::new(u16_at(self.entry(), 16), u32_at(self.entry(), 20))
    }

    /// How often its original was written.
    ///
    /// ```
    /// use lupaniele::{Image, Version};
    /// let image = Image::make(Version::One, 1, 16)?;
    /// let card = image.card(0).unwrap();
    /// assert_eq!(card.edition(), 0);
    /// # Ok::<(), lupaniele::Number>(())
    /// ```
    #[must_use]
    pub fn edition(&self) -> u16 {
        u16_at(self.entry(), 24)
    }

    /// The edition that a translation was made from, 0 for none; nothing where the image does not have the language.
    ///
    /// ```
    /// use lupaniele::{Image, Language, Version};
    /// let image = Image::make(Version::One, 1, 16)?;
    /// let card = image.card(0).unwrap();
    /// assert_eq!(card.translated_from(Language::First), Some(0));
    /// assert_eq!(card.translated_from(Language::Second), None); // version 1 has one language
    /// # Ok::<(), lupaniele::Number>(())
    /// ```
    #[must_use]
    pub fn translated_from(&self, language: Language) -> Option<u16> {
        let there = self.has(language);
        there.then(|| u16_at(self.image, self.translated_from_place(language)))
    }

    pub(crate) fn original_length(&self) -> u16 {
        u16_at(self.image, self.length_place(None))
    }

    pub(crate) fn translation_length(&self, language: Language) -> Option<u16> {
        let there = self.has(language);
        there.then(|| u16_at(self.image, self.length_place(Some(language))))
    }

    /// Its original.
    ///
    /// ```
    /// use lupaniele::{Image, Version};
    /// let image = Image::make(Version::One, 1, 16)?;
    /// let card = image.card(0).unwrap();
    /// assert_eq!(card.original(), b"");
    /// # Ok::<(), lupaniele::Number>(())
    /// ```
    #[must_use]
    pub fn original(&self) -> &'a [u8] {
        slice_at(self.body(0), 0, self.original_length().into())
    }

    /// A translation as it stands there, behind or not; nothing where the image does not have the language.
    ///
    /// ```
    /// use lupaniele::{Image, Language, Version};
    /// let image = Image::make(Version::One, 1, 16)?;
    /// let card = image.card(0).unwrap();
    /// assert_eq!(card.translation(Language::First), Some(&[][..]));
    /// # Ok::<(), lupaniele::Number>(())
    /// ```
    #[must_use]
    pub fn translation(&self, language: Language) -> Option<&'a [u8]> {
        let length = self.translation_length(language)?;
        let body = self.body(1 + usize::from(language.number()));
        Some(slice_at(body, 0, length.into()))
    }

    /// A translation that may be shown (rule 6.2).
    ///
    /// # Errors
    ///
    /// [`Number::EditionWrong`] where it is behind, or the image does not have the language.
    ///
    /// ```
    /// use lupaniele::{Image, Language, Number, Version};
    /// let image = Image::make(Version::One, 1, 16)?;
    /// let card = image.card(0).unwrap();
    /// assert_eq!(card.shown(Language::First), Err(Number::EditionWrong)); // there is none yet
    /// # Ok::<(), Number>(())
    /// ```
    pub fn shown(&self, language: Language) -> Result<&'a [u8], Number> {
        let (Some(from), Some(text)) = (self.translated_from(language), self.translation(language))
        else {
            return Err(Number::EditionWrong);
        };
        Held::new(self.original(), text, self.edition(), from).translation()
    }
}

/// The cards of an image, one after the other.
///
/// ```
/// use lupaniele::{Image, Version};
/// let image = Image::make(Version::Two, 2, 16)?;
/// assert_eq!(image.cards().map(|card| card.number()).collect::<Vec<_>>(), [0, 1]);
/// # Ok::<(), lupaniele::Number>(())
/// ```
#[derive(Clone, Debug)]
pub struct Cards<'a> {
    version: Version,
    image: &'a [u8],
    numbers: std::ops::Range<u16>,
}

impl<'a> Cards<'a> {
    pub(crate) fn new(version: Version, image: &'a [u8], count: u16) -> Cards<'a> {
        Cards {
            version,
            image,
            numbers: 0..count,
        }
    }
}

impl<'a> Iterator for Cards<'a> {
    type Item = Card<'a>;

    fn next(&mut self) -> Option<Card<'a>> {
        let card = self.numbers.next()?;
        Some(Card::new(self.version, self.image, card))
    }
}
