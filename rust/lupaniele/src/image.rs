use crate::bytes::{u8_at, u16_at};
use crate::cards::{Card, Cards};
use crate::{Answer, Broken, BuildError, Command, Number, Version, raw};

/// More bytes than these has no image (rule 2.2).
///
/// ```
/// assert_eq!(lupaniele::LARGEST_IMAGE, 65_536);
/// ```
pub const LARGEST_IMAGE: usize = 65_536;

/// The most cards that an image has (rule 2.2).
///
/// ```
/// use lupaniele::{Image, MOST_CARDS, Version};
/// assert!(Image::make(Version::One, MOST_CARDS, 16).is_ok());
/// assert!(Image::make(Version::One, MOST_CARDS + 1, 16).is_err());
/// ```
pub const MOST_CARDS: u16 = 128;

/// The rooms that a text can have, in order (rule 2.2).
///
/// ```
/// use lupaniele::{Image, Version, rooms};
/// let made = (0..=u16::MAX).filter(|room| Image::make(Version::One, 1, *room).is_ok());
/// assert!(made.eq(rooms()));
/// ```
pub fn rooms() -> impl DoubleEndedIterator<Item = u16> {
    (16..=1_024).step_by(16)
}

/// A sound image: the store's cards in bytes (sections 2, 4 and 15 of the rules), owned or lent. It is sound when it is
/// made or checked, and every request leaves it so.
///
/// ```
/// use lupaniele::{Command, Image, Language, Number, Pair, Stamp, Version};
///
/// let mut image = Image::make(Version::One, 1, 16)?;
/// let stamp = Stamp::new(1, 1, 0);
/// let pair = Pair::new(stamp, stamp);
/// image.answer(&Command::write_original(0, b"205").exclusive(pair), &mut [])?.accepted()?;
///
/// // Its translation is behind until it is written.
/// let read = Command::read_translation(0, Language::First).shared(pair);
/// let mut reply = [0; 16];
/// assert_eq!(image.answer(&read, &mut reply)?.number, Number::EditionWrong);
/// # Ok::<(), Box<dyn std::error::Error>>(())
/// ```
#[derive(Clone, Debug, PartialEq, Eq)]
pub struct Image<B = Vec<u8>> {
    version: Version,
    bytes: B,
}

impl Image {
    /// Makes a fresh image of so many cards, each text with this room.
    ///
    /// # Errors
    ///
    /// [`Number::NotMade`] where there is no image of these (rules 2.2 and 15.2).
    ///
    /// ```
    /// use lupaniele::{Image, Number, Version};
    /// assert_eq!(Image::make(Version::One, 31, 1024)?.bytes().len(), 64_496);
    /// assert_eq!(Image::make(Version::One, 32, 1024), Err(Number::NotMade));
    /// # Ok::<(), Number>(())
    /// ```
    pub fn make(version: Version, cards: u16, room: u16) -> Result<Image, Number> {
        // More bytes than any image has are not taken from the system: nothing is lent then, and the answer is the
        // same.
        let length = version.image_bytes(cards.into(), room.into());
        let length = length.filter(|length| *length <= LARGEST_IMAGE);
        Image::make_in(version, cards, room, vec![0; length.unwrap_or(0)])
    }
}

impl<B: AsRef<[u8]>> Image<B> {
    /// The image in some bytes, whatever version it is.
    ///
    /// # Errors
    ///
    /// Where the bytes are no sound image of either version: the first rule that they break.
    ///
    /// ```
    /// use lupaniele::{Broken, Image, Version};
    /// let mut bytes = Image::make(Version::Two, 1, 16)?.into_bytes();
    /// assert_eq!(Image::check(&bytes)?.version(), Version::Two);
    /// bytes[10] = 1;
    /// assert_eq!(Image::check(&bytes[..]), Err(Broken::Header));
    /// # Ok::<(), Box<dyn std::error::Error>>(())
    /// ```
    pub fn check(bytes: B) -> Result<Image<B>, Broken> {
        let lent = bytes.as_ref();
        let version = if raw::sound(lent) {
            Version::One
        } else if raw::sound_v2(lent) {
            Version::Two
        } else {
            return Err(Broken::first(lent));
        };
        Ok(Image { version, bytes })
    }

    /// Its version.
    ///
    /// ```
    /// use lupaniele::{Image, Version};
    /// assert_eq!(Image::make(Version::Two, 1, 16)?.version(), Version::Two);
    /// # Ok::<(), lupaniele::Number>(())
    /// ```
    #[must_use]
    pub fn version(&self) -> Version {
        self.version
    }

    /// Its bytes.
    ///
    /// ```
    /// use lupaniele::{Image, Version};
    /// assert_eq!(Image::make(Version::One, 1, 16)?.bytes().len(), 80);
    /// # Ok::<(), lupaniele::Number>(())
    /// ```
    #[must_use]
    pub fn bytes(&self) -> &[u8] {
        self.bytes.as_ref()
    }

    /// Its bytes, as they were lent.
    ///
    /// ```
    /// use lupaniele::{Image, Version};
    /// let bytes = Image::make(Version::One, 1, 16)?.into_bytes();
    /// assert!(Image::check(bytes).is_ok());
    /// # Ok::<(), lupaniele::Number>(())
    /// ```
    #[must_use]
    pub fn into_bytes(self) -> B {
        self.bytes
    }

    /// How many cards it has, N.
    ///
    /// ```
    /// use lupaniele::{Image, Version};
    /// let image = Image::make(Version::One, 3, 64)?;
    /// assert_eq!((image.count(), image.room()), (3, 64));
    /// # Ok::<(), lupaniele::Number>(())
    /// ```
    #[must_use]
    pub fn count(&self) -> u16 {
        u16_at(self.bytes(), 6)
    }

    /// The room of each text, C.
    ///
    /// ```
    /// use lupaniele::{Image, Version};
    /// assert_eq!(Image::make(Version::One, 1, 16)?.room(), 16);
    /// # Ok::<(), lupaniele::Number>(())
    /// ```
    #[must_use]
    pub fn room(&self) -> u16 {
        u16_at(self.bytes(), 8)
    }

    /// Its cards, with their entries and texts.
    ///
    /// ```
    /// use lupaniele::{Image, Version};
    /// let image = Image::make(Version::One, 3, 64)?;
    /// assert_eq!(image.cards().filter(|card| card.edition() == 0).count(), 3);
    /// # Ok::<(), lupaniele::Number>(())
    /// ```
    #[must_use]
    pub fn cards(&self) -> Cards<'_> {
        Cards::new(self.version, self.bytes(), self.count())
    }

    /// One card, if there is such a one.
    ///
    /// ```
    /// use lupaniele::{Image, Version};
    /// let image = Image::make(Version::One, 3, 64)?;
    /// assert!(image.card(2).is_some() && image.card(3).is_none());
    /// # Ok::<(), lupaniele::Number>(())
    /// ```
    #[must_use]
    pub fn card(&self, card: u16) -> Option<Card<'_>> {
        (card < self.count()).then(|| Card::new(self.version, self.bytes(), card))
    }

    /// The same cards as an image of version 2 (rules 15.9 to 15.11).
    ///
    /// # Errors
    ///
    /// [`Number::Unsound`] where this is version 2 already, [`Number::NotMade`] where four translations of each card
    /// are too many.
    ///
    /// ```
    /// use lupaniele::{Image, Number, Version};
    /// let image = Image::make(Version::One, 1, 16)?;
    /// let converted = image.convert()?;
    /// assert_eq!((converted.version(), converted.bytes().len()), (Version::Two, 144));
    /// assert_eq!(converted.convert(), Err(Number::Unsound));
    /// # Ok::<(), Number>(())
    /// ```
    pub fn convert(&self) -> Result<Image, Number> {
        let length = Version::Two.image_bytes(self.count().into(), self.room().into());
        self.convert_into(vec![0; length.unwrap_or(0)])
    }

    /// The same, into lent bytes.
    ///
    /// # Errors
    ///
    /// As [`convert`](Image::convert), and [`Number::NotMade`] where the lent bytes are not exactly as many.
    ///
    /// ```
    /// use lupaniele::{Image, Number, Version};
    /// let image = Image::make(Version::One, 1, 16)?;
    /// assert_eq!(image.convert_into(&mut [0; 143][..]), Err(Number::NotMade));
    /// # Ok::<(), Number>(())
    /// ```
    pub fn convert_into<T: AsMut<[u8]>>(&self, mut target: T) -> Result<Image<T>, Number> {
        Number::given(raw::convert(self.bytes(), target.as_mut())).done()?;
        Ok(Image {
            version: Version::Two,
            bytes: target,
        })
    }
}

impl<B: AsMut<[u8]>> Image<B> {
    /// Makes a fresh image in the whole of some lent bytes.
    ///
    /// # Errors
    ///
    /// [`Number::NotMade`] where there is no image of these, or the bytes are not exactly as many.
    ///
    /// ```
    /// use lupaniele::{Image, Version};
    /// let mut bytes = [0; 80];
    /// let image = Image::make_in(Version::One, 1, 16, &mut bytes[..])?;
    /// assert_eq!(image.count(), 1);
    /// # Ok::<(), lupaniele::Number>(())
    /// ```
    pub fn make_in(
        version: Version,
        cards: u16,
        room: u16,
        mut bytes: B,
    ) -> Result<Image<B>, Number> {
        let (cards, room) = (cards.into(), room.into());
        let number = match version {
            Version::One => raw::make(bytes.as_mut(), cards, room),
            Version::Two => raw::make_v2(bytes.as_mut(), cards, room),
        };
        Number::given(number).done()?;
        Ok(Image { version, bytes })
    }

    /// One request (rule 4.1). The text of an accepted read stands in front of `reply`.
    ///
    /// # Errors
    ///
    /// Where the command has no bytes in this version. A refusal is an answer, not an error.
    ///
    /// ```
    /// use lupaniele::{Command, Image, Pair, Stamp, Version};
    /// let mut image = Image::make(Version::One, 1, 16)?;
    /// let command = Command::verify(0).shared(Pair::new(Stamp::new(1, 1, 0), Stamp::NONE));
    /// assert!(image.answer(&command, &mut [])?.is_accepted());
    /// # Ok::<(), Box<dyn std::error::Error>>(())
    /// ```
    pub fn answer(&mut self, command: &Command, reply: &mut [u8]) -> Result<Answer, BuildError> {
        let bytes = command.to_bytes(self.version)?;
        Ok(self.answer_bytes(&bytes, reply))
    }

    /// One request, in bytes of this version: any bytes get their answer.
    ///
    /// ```
    /// use lupaniele::{Image, Number, Version};
    /// let mut image = Image::make(Version::One, 1, 16)?;
    /// assert_eq!(image.answer_bytes(b"hello", &mut []).number, Number::Malformed);
    /// # Ok::<(), Number>(())
    /// ```
    pub fn answer_bytes(&mut self, command: &[u8], reply: &mut [u8]) -> Answer {
        let (image, mut fields) = (self.bytes.as_mut(), [0; 7]);
        let number = match self.version {
            Version::One => raw::answer(image, command, reply, &mut fields),
            Version::Two => raw::answer_v2(image, command, reply, &mut fields),
        };
        Answer::given(number, fields)
    }

    /// A run (rule 8.5): every whole command of a stream in its order, with the image checked once; the answers and the
    /// byte where it stopped.
    ///
    /// ```
    /// use lupaniele::{Command, Image, Pair, Stamp, Version};
    /// let mut image = Image::make(Version::One, 1, 16)?;
    /// let stamp = Stamp::new(1, 1, 0);
    /// let mut stream = Command::write_original(0, b"205").exclusive(Pair::new(stamp, stamp)).to_bytes(Version::One)?;
    /// stream.extend([0; 5]);
    /// let (answers, end) = image.run(&stream, &mut [0; 16]);
    /// assert_eq!((answers.len(), end), (1, 55));
    /// assert_eq!(answers[0].edition, 1);
    /// # Ok::<(), Box<dyn std::error::Error>>(())
    /// ```
    pub fn run(&mut self, stream: &[u8], reply: &mut [u8]) -> (Vec<Answer>, usize) {
        let most = stream.len() / self.version.command_bytes();
        let mut lines = vec![[0; 8]; most];
        let (count, end) = self.run_into(stream, reply, &mut lines);
        let answers = lines.iter().take(count).map(|line| {
            let [number, fields @ ..] = *line;
            Answer::given(number as u8, fields)
        });
        (answers.collect(), end)
    }

    /// The same, into lent lines of eight numbers each, as many commands as there are lines: how many were judged, and
    /// the byte where it stopped, from which a caller goes on.
    ///
    /// ```
    /// use lupaniele::{Answer, Image, Number, Version};
    /// let mut image = Image::make(Version::One, 1, 16)?;
    /// let mut lines = [[0; 8]; 2];
    /// assert_eq!(image.run_into(&[0; 3 * 52], &mut [], &mut lines), (2, 104)); // of three malformed commands
    /// assert_eq!(Answer::from_line(lines[1]).map(|answer| answer.number), Some(Number::Malformed));
    /// # Ok::<(), Number>(())
    /// ```
    pub fn run_into(
        &mut self,
        stream: &[u8],
        reply: &mut [u8],
        lines: &mut [[u64; 8]],
    ) -> (usize, usize) {
        let (image, lines, mut end) = (self.bytes.as_mut(), lines.as_flattened_mut(), 0);
        let count = match self.version {
            Version::One => raw::run(image, stream, reply, lines, &mut end),
            Version::Two => raw::run_v2(image, stream, reply, lines, &mut end),
        };
        (count as usize, end as usize)
    }

    pub(crate) fn bytes_mut(&mut self) -> &mut [u8] {
        self.bytes.as_mut()
    }
}

/// The version that a header names, for one that cannot be checked whole.
pub(crate) fn named_version(bytes: &[u8]) -> Option<Version> {
    match (u8_at(bytes, 4), u8_at(bytes, 5)) {
        (1, 0) => Some(Version::One),
        (2, 0) => Some(Version::Two),
        _ => None,
    }
}
