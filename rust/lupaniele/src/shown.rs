use crate::{Number, raw};

/// What a desk holds of a card, at its own word, and which part of it may be shown (rules 6.1 to 6.3).
///
/// ```
/// use lupaniele::{Held, Number};
///
/// let held = Held::new(b"205 degrees", b"401 F", 2, 1);
/// assert_eq!(held.original(), Ok(&b"205 degrees"[..]));
/// assert_eq!(held.translation(), Err(Number::EditionWrong)); // made from edition 1, and the original is edition 2
/// ```
#[derive(Clone, Copy, Debug, PartialEq, Eq)]
pub struct Held<'a> {
    /// The buffer of the original.
    pub original: &'a [u8],
    /// The buffer of the translation.
    pub translation: &'a [u8],
    /// How many bytes of its buffer the original is.
    pub original_length: u64,
    /// How many bytes of its buffer the translation is.
    pub translation_length: u64,
    /// The edition of the original.
    pub edition: u16,
    /// The edition that the translation was made from.
    pub translated_from: u16,
}

impl<'a> Held<'a> {
    /// Two texts that fill their buffers.
    ///
    /// ```
    /// use lupaniele::Held;
    /// assert_eq!(Held::new(b"205", b"401", 1, 1).original_length, 3);
    /// ```
    #[must_use]
    pub fn new(
        original: &'a [u8],
        translation: &'a [u8],
        edition: u16,
        translated_from: u16,
    ) -> Held<'a> {
        Held {
            original,
            translation,
            original_length: original.len() as u64,
            translation_length: translation.len() as u64,
            edition,
            translated_from,
        }
    }

    /// The original.
    ///
    /// # Errors
    ///
    /// [`Number::ReplyShort`] where a length is beyond its buffer.
    ///
    /// ```
    /// use lupaniele::{Held, Number};
    /// let held = Held { original_length: 4, ..Held::new(b"205", b"401", 1, 1) };
    /// assert_eq!(held.original(), Err(Number::ReplyShort));
    /// ```
    pub fn original(&self) -> Result<&'a [u8], Number> {
        self.asked(self.original, 0)
    }

    /// The translation.
    ///
    /// # Errors
    ///
    /// [`Number::ReplyShort`] where a length is beyond its buffer, [`Number::EditionWrong`] where it is behind.
    ///
    /// ```
    /// use lupaniele::Held;
    /// assert_eq!(Held::new(b"205", b"401", 1, 1).translation(), Ok(&b"401"[..]));
    /// ```
    pub fn translation(&self) -> Result<&'a [u8], Number> {
        self.asked(self.translation, 1)
    }

    fn asked(&self, buffer: &'a [u8], asked: u8) -> Result<&'a [u8], Number> {
        let mut count = 0;
        let number = raw::shown(
            self.original,
            self.translation,
            self.original_length,
            self.translation_length,
            self.edition,
            self.translated_from,
            asked,
            &mut count,
        );
        Number::given(number).done()?;
        Ok(buffer.get(..count as usize).unwrap_or(&[]))
    }
}
