use crate::{Mark, Number, Pair};

/// The store's answer: its number and the seven reply fields (rule 4.8), by their names.
///
/// ```
/// use lupaniele::{Command, Image, Number, Pair, Stamp, Version};
///
/// let mut image = Image::make(Version::One, 1, 16)?;
/// let stamp = Stamp::new(1, 1, 0);
/// let write = Command::write_original(0, b"205").exclusive(Pair::new(stamp, stamp));
/// let answer = image.answer(&write, &mut [])?;
/// assert_eq!(answer.number, Number::Accepted);
/// assert_eq!((answer.edition, answer.translated_from), (1, 0));
/// # Ok::<(), Box<dyn std::error::Error>>(())
/// ```
#[derive(Clone, Copy, Debug, PartialEq, Eq)]
#[must_use = "an answer says whether the command was accepted"]
pub struct Answer {
    /// The number.
    pub number: Number,
    /// The pair of the entry: s and x, the first two fields.
    pub pair: Pair,
    /// Its commit mark: desk and transaction, the next two.
    pub mark: Mark,
    /// The edition of the original.
    pub edition: u16,
    /// The edition that the translation was made from.
    pub translated_from: u16,
    /// The length of the text that was read.
    pub length: u16,
}

impl Answer {
    /// From a number and fields as an exported function gives them; each field is within its type, since it was read
    /// from one.
    pub(crate) fn given(number: u8, fields: [u64; 7]) -> Answer {
        let [s, x, desk, transaction, edition, from, length] = fields;
        Answer {
            number: Number::given(number),
            pair: Pair::of([s, x]),
            mark: Mark::new(desk as u16, transaction as u32),
            edition: edition as u16,
            translated_from: from as u16,
            length: length as u16,
        }
    }

    /// The answer as eight numbers, the number first: for a transport.
    ///
    /// ```
    /// use lupaniele::{Answer, Command, Image, Pair, Stamp, Version};
    /// let mut image = Image::make(Version::One, 1, 16)?;
    /// let command = Command::verify(0).shared(Pair::new(Stamp::new(1, 1, 0), Stamp::NONE));
    /// let answer = image.answer(&command, &mut [])?;
    /// assert_eq!(Answer::from_line(answer.to_line()), Some(answer));
    /// assert_eq!(Answer::from_line([27, 0, 0, 0, 0, 0, 0, 0]), None);
    /// # Ok::<(), Box<dyn std::error::Error>>(())
    /// ```
    #[must_use]
    pub fn to_line(&self) -> [u64; 8] {
        let [s, x] = self.pair.numbers();
        [
            u8::from(self.number).into(),
            s,
            x,
            self.mark.desk.into(),
            self.mark.transaction.into(),
            self.edition.into(),
            self.translated_from.into(),
            self.length.into(),
        ]
    }

    /// The answer in eight numbers, if they are one.
    ///
    /// ```
    /// use lupaniele::{Answer, Number};
    /// let answer = Answer::from_line([3, 0, 0, 0, 0, 7, 0, 0]).unwrap();
    /// assert_eq!((answer.number, answer.edition), (Number::Stale, 7));
    /// ```
    #[must_use]
    pub fn from_line(line: [u64; 8]) -> Option<Answer> {
        let [number, s, x, desk, transaction, edition, from, length] = line;
        Some(Answer {
            number: Number::try_from(u8::try_from(number).ok()?).ok()?,
            pair: Pair::of([s, x]),
            mark: Mark::new(desk.try_into().ok()?, transaction.try_into().ok()?),
            edition: edition.try_into().ok()?,
            translated_from: from.try_into().ok()?,
            length: length.try_into().ok()?,
        })
    }

    /// Whether the command was accepted.
    ///
    /// ```
    /// use lupaniele::Answer;
    /// assert!(Answer::from_line([0; 8]).is_some_and(|answer| answer.is_accepted()));
    /// ```
    #[must_use]
    pub fn is_accepted(&self) -> bool {
        self.number == Number::Accepted
    }

    /// The answer if the command was accepted, else its number.
    ///
    /// # Errors
    ///
    /// The number, if it is not [`Number::Accepted`].
    ///
    /// ```
    /// use lupaniele::{Command, Image, Number, Pair, Stamp, Version};
    /// let mut image = Image::make(Version::One, 1, 16)?;
    /// let command = Command::verify(7).shared(Pair::new(Stamp::new(1, 1, 0), Stamp::NONE));
    /// assert_eq!(image.answer(&command, &mut [])?.accepted(), Err(Number::NoCard));
    /// # Ok::<(), Box<dyn std::error::Error>>(())
    /// ```
    pub fn accepted(self) -> Result<Answer, Number> {
        self.number.done().map(|()| self)
    }

    /// The text that an accepted read put in front of its reply buffer; none after any other answer.
    ///
    /// ```
    /// use lupaniele::{Command, Image, Pair, Stamp, Version};
    /// let mut image = Image::make(Version::One, 1, 16)?;
    /// let stamp = Stamp::new(1, 1, 0);
    /// let pair = Pair::new(stamp, stamp);
    /// image.answer(&Command::write_original(0, b"205").exclusive(pair), &mut [])?.accepted()?;
    /// let mut reply = [0; 16];
    /// let answer = image.answer(&Command::read_original(0).shared(pair), &mut reply)?;
    /// assert_eq!(answer.text(&reply), b"205");
    /// # Ok::<(), Box<dyn std::error::Error>>(())
    /// ```
    #[must_use]
    pub fn text<'a>(&self, reply: &'a [u8]) -> &'a [u8] {
        reply.get(..self.length.into()).unwrap_or(&[])
    }
}
