//! Streams: commands of one version end to end (rules 8.1 and 8.2).

use crate::command::LENGTH_OFFSET;
use crate::endian::u16_at;
use crate::format::Format;
use crate::store::Answer;

/// What stands at a place of a stream.
#[derive(Clone, Copy, Debug, PartialEq, Eq, Hash)]
pub enum Standing<'a> {
    /// A whole command, well formed or not, and the place after it.
    Command {
        /// The fixed part and the payload.
        bytes: &'a [u8],
        /// The place after the command.
        next: usize,
    },
    /// Nothing: the stream ends exactly here.
    End,
    /// A command that is not whole, or a place beyond the stream.
    Cut,
}

/// What stands at this place of a stream of commands of this version. Well
/// formed or not, a command ends where its bytes at 50 say (rule 8.1).
pub fn standing_at(format: Format, stream: &[u8], place: usize) -> Standing<'_> {
    match stream.get(place..) {
        Some([]) => Standing::End,
        Some(rest) => match whole_command(format, rest) {
            Some(bytes) => Standing::Command {
                bytes,
                next: place.saturating_add(bytes.len()),
            },
            None => Standing::Cut,
        },
        None => Standing::Cut,
    }
}

/// The command at the front of these bytes, if it is whole.
fn whole_command(format: Format, rest: &[u8]) -> Option<&[u8]> {
    let payload = usize::from(u16_at(rest, LENGTH_OFFSET)?);
    rest.get(..format.command_bytes().saturating_add(payload))
}

/// A reader of a lent stream, from its place on. It gives the whole commands in
/// turn and then stays where it ended.
#[derive(Clone, Copy, Debug, PartialEq, Eq, Hash)]
pub struct Reader<'a> {
    /// The version of its commands.
    pub format: Format,
    /// The lent stream.
    pub stream: &'a [u8],
    /// The byte it stands at, counted from the stream's start.
    pub place: usize,
}

impl<'a> Reader<'a> {
    /// A reader at the start of a stream.
    pub fn new(format: Format, stream: &'a [u8]) -> Reader<'a> {
        let place = 0;
        Reader {
            format,
            stream,
            place,
        }
    }

    /// What stands at the reader's place.
    pub fn standing(&self) -> Standing<'a> {
        standing_at(self.format, self.stream, self.place)
    }

    /// How many bytes are left over at the reader's place.
    pub fn left_over(&self) -> usize {
        self.stream.len().saturating_sub(self.place)
    }
}

impl<'a> Iterator for Reader<'a> {
    type Item = &'a [u8];

    fn next(&mut self) -> Option<&'a [u8]> {
        match self.standing() {
            Standing::Command { bytes, next } => {
                self.place = next;
                Some(bytes)
            }
            Standing::End | Standing::Cut => None,
        }
    }
}

/// How a walk ended.
#[derive(Clone, Copy, Debug, PartialEq, Eq, Hash)]
pub struct Walk {
    /// How many whole commands were passed over.
    pub commands: usize,
    /// The byte where the walk ended, counted from the stream's start.
    pub place: usize,
    /// Whether it ended at a cut, not at the stream's end.
    pub cut: bool,
}

/// Walks a stream from a place on, as far as commands are whole (rule 8.2).
pub fn walk(format: Format, stream: &[u8], place: usize) -> Walk {
    let mut reader = Reader {
        format,
        stream,
        place,
    };
    let commands = reader.by_ref().count();
    ended(reader, commands)
}

/// Answers every whole command of a stream in turn, all with the same reply
/// buffer (rule 8.5).
pub fn run(
    format: Format,
    image: &mut [u8],
    stream: &[u8],
    reply: &mut [u8],
) -> (Vec<Answer>, Walk) {
    let mut reader = Reader::new(format, stream);
    let answers: Vec<Answer> = reader
        .by_ref()
        .map(|command| format.answer(image, command, reply))
        .collect();
    let walk = ended(reader, answers.len());
    (answers, walk)
}

/// The walk of a reader that has passed over so many commands and found no
/// more.
fn ended(reader: Reader, commands: usize) -> Walk {
    Walk {
        commands,
        place: reader.place,
        cut: reader.standing() == Standing::Cut,
    }
}
