//! What desks leave of what they did, in one file: a note before each command and one behind its answer, both while the
//! store is theirs, and the same of their logs. A note is appended by one write; one that a kill has cut is passed over.

use std::fmt;
use std::fs::{File, OpenOptions};
use std::io::{self, Read, Write};
use std::path::Path;

use lupaniele::DeskId;

/// What a note begins with.
const MAGIC: [u8; 8] = [0xf7, b'k', b'i', b'l', b'l', 0x1a, 0x93, 0x0d];
/// What stands around the words of a note: the magic, their length and their sum.
const AROUND: usize = 8 + 4 + 8;
/// The most bytes that a note's words have.
const LONGEST: usize = 1 << 17;

/// What is noted.
#[derive(Clone, Debug, PartialEq, Eq)]
pub enum Note {
    /// A command is to be sent, to the store as it now is; so many bytes, all zero, are lent for the reply.
    Sent {
        image: Vec<u8>,
        command: Vec<u8>,
        lent: u32,
    },
    /// Its answer came: the number and the seven fields, and the reply buffer without the zeros at its end.
    Answered { line: [u64; 8], reply: Vec<u8> },
    /// The process of a desk has the log of this one now, under a new start.
    Opened { log: Vec<u8>, by: u16 },
    /// A record is to be appended to it.
    Appending { kind: u8, body: Vec<u8> },
    /// That was answered with this number.
    Appended { number: u8 },
    /// The log is to begin again.
    Beginning,
    /// It did.
    Begun { log: Vec<u8> },
    /// What stood in the log is finished.
    Recovered,
    /// A transaction ended: whether it is done, else it is given up.
    Told { transaction: u32, done: bool },
}

/// A note and whose it is.
#[derive(Clone, Debug, PartialEq, Eq)]
pub struct Line {
    pub desk: u16,
    pub start: u16,
    pub note: Note,
}

impl Note {
    /// Its kind and its parts.
    fn parts(&self) -> (u8, Vec<Vec<u8>>) {
        match self {
            Note::Sent {
                image,
                command,
                lent,
            } => {
                let lent = lent.to_le_bytes().to_vec();
                (1, vec![image.clone(), command.clone(), lent])
            }
            Note::Answered { line, reply } => {
                let line = line.iter().flat_map(|number| number.to_le_bytes());
                (2, vec![line.collect(), reply.clone()])
            }
            Note::Opened { log, by } => (3, vec![log.clone(), by.to_le_bytes().to_vec()]),
            Note::Appending { kind, body } => (4, vec![vec![*kind], body.clone()]),
            Note::Appended { number } => (5, vec![vec![*number]]),
            Note::Beginning => (6, vec![]),
            Note::Recovered => (7, vec![]),
            Note::Begun { log } => (9, vec![log.clone()]),
            Note::Told { transaction, done } => {
                let done = vec![u8::from(*done)];
                (8, vec![transaction.to_le_bytes().to_vec(), done])
            }
        }
    }

    fn of_parts(kind: u8, parts: &[&[u8]]) -> Option<Note> {
        Some(match (kind, parts) {
            (1, [image, command, lent]) => Note::Sent {
                image: image.to_vec(),
                command: command.to_vec(),
                lent: u32::from_le_bytes((*lent).try_into().ok()?),
            },
            (2, [numbers, reply]) => {
                let mut line = [0; 8];
                for (number, bytes) in line.iter_mut().zip(numbers.chunks_exact(8)) {
                    *number = u64::from_le_bytes(bytes.try_into().ok()?);
                }
                let reply = reply.to_vec();
                Note::Answered { line, reply }
            }
            (3, [log, by]) => Note::Opened {
                log: log.to_vec(),
                by: u16::from_le_bytes((*by).try_into().ok()?),
            },
            (4, [[kind], body]) => Note::Appending {
                kind: *kind,
                body: body.to_vec(),
            },
            (5, [[number]]) => Note::Appended { number: *number },
            (6, []) => Note::Beginning,
            (7, []) => Note::Recovered,
            (9, [log]) => Note::Begun { log: log.to_vec() },
            (8, [transaction, [done]]) => Note::Told {
                transaction: u32::from_le_bytes((*transaction).try_into().ok()?),
                done: *done == 1,
            },
            _ => return None,
        })
    }
}

/// FNV-1a, of 64 bits.
fn sum(bytes: &[u8]) -> u64 {
    let step = |sum: u64, byte: &u8| (sum ^ u64::from(*byte)).wrapping_mul(0x0100_0000_01b3);
    bytes.iter().fold(0xcbf2_9ce4_8422_2325, step)
}

/// The first so many bytes, which are taken away.
fn take<'a>(bytes: &mut &'a [u8], length: usize) -> Option<&'a [u8]> {
    let (taken, left) = bytes.split_at_checked(length)?;
    *bytes = left;
    Some(taken)
}

impl Line {
    fn to_bytes(&self) -> Vec<u8> {
        let (kind, parts) = self.note.parts();
        let mut words = vec![kind];
        words.extend_from_slice(&self.desk.to_le_bytes());
        words.extend_from_slice(&self.start.to_le_bytes());
        for part in parts {
            words.extend_from_slice(&(part.len() as u32).to_le_bytes());
            words.extend_from_slice(&part);
        }
        let length = (words.len() as u32).to_le_bytes();
        [&MAGIC[..], &length, &words, &sum(&words).to_le_bytes()].concat()
    }

    fn of_words(mut words: &[u8]) -> Option<Line> {
        let kind = *take(&mut words, 1)?.first()?;
        let desk = u16::from_le_bytes(take(&mut words, 2)?.try_into().ok()?);
        let start = u16::from_le_bytes(take(&mut words, 2)?.try_into().ok()?);
        let mut parts = Vec::new();
        while !words.is_empty() {
            let length = u32::from_le_bytes(take(&mut words, 4)?.try_into().ok()?);
            parts.push(take(&mut words, length as usize)?);
        }
        let note = Note::of_parts(kind, &parts)?;
        Some(Line { desk, start, note })
    }
}

/// The most bytes that are shown of a part.
const SHOWN: usize = 96;

/// Who notes what, its parts as bytes in hexadecimal.
impl fmt::Display for Line {
    fn fmt(&self, to: &mut fmt::Formatter) -> fmt::Result {
        let what = match self.note {
            Note::Sent { .. } => "sends to this image this command, with so many bytes lent",
            Note::Answered { .. } => "gets this answer (a number and seven fields) and this reply",
            Note::Opened { .. } => "has its log opened, by the process of this desk",
            Note::Appending { .. } => "appends to its log, of this kind and with this body",
            Note::Appended { .. } => "has that answered with this number",
            Note::Beginning => "lets its log begin again",
            Note::Begun { .. } => "has its log begun again",
            Note::Recovered => "is through with its recovery",
            Note::Told { .. } => "is through with this transaction, and it is done (1) or given up",
        };
        write!(to, "desk {} under start {} {what}", self.desk, self.start)?;
        for part in self.note.parts().1 {
            to.write_str("\n ")?;
            for byte in part.iter().take(SHOWN) {
                write!(to, " {byte:02x}")?;
            }
            if part.len() > SHOWN {
                write!(to, " .. ({} bytes)", part.len())?;
            }
        }
        Ok(())
    }
}

/// The trace as desks write it.
#[derive(Debug)]
pub struct Trace {
    file: File,
}

impl Trace {
    pub fn open(path: &Path) -> Result<Trace, String> {
        let file = OpenOptions::new().create(true).append(true).open(path);
        let file = file.map_err(|why| format!("{}: {why}", path.display()))?;
        Ok(Trace { file })
    }

    /// Leaves a note.
    pub fn note(&self, who: DeskId, note: Note) -> Result<(), String> {
        let DeskId { desk, start } = who;
        let line = Line { desk, start, note };
        let written = (&self.file).write_all(&line.to_bytes());
        written.map_err(|why| format!("the trace: {why}"))
    }
}

/// The trace as the judge reads it, while it grows.
#[derive(Debug)]
pub struct Reader {
    file: File,
    left: Vec<u8>,
    /// It stands in a note that was cut.
    passing: bool,
    /// How many notes were cut.
    pub cut: u64,
}

/// What stands in front of some bytes.
enum Front {
    Whole(Option<Line>, usize),
    /// More has to come.
    Short,
    Cut,
}

fn front(bytes: &[u8]) -> Front {
    let magic = &bytes[..bytes.len().min(MAGIC.len())];
    if !MAGIC.starts_with(magic) {
        return Front::Cut;
    }
    let Some(Ok(length)) = bytes.get(8..12).map(<[u8; 4]>::try_from) else {
        return Front::Short;
    };
    let length = u32::from_le_bytes(length) as usize;
    if length > LONGEST {
        return Front::Cut;
    }
    let (Some(words), Some(end)) = (
        bytes.get(12..12 + length),
        bytes.get(12 + length..AROUND + length),
    ) else {
        return Front::Short;
    };
    match end == sum(words).to_le_bytes() {
        true => Front::Whole(Line::of_words(words), AROUND + length),
        false => Front::Cut,
    }
}

impl Reader {
    pub fn open(path: &Path) -> io::Result<Reader> {
        Ok(Reader {
            file: File::open(path)?,
            left: Vec::new(),
            passing: false,
            cut: 0,
        })
    }

    /// What came since. Of a note that stands half at the end the rest may come yet; with `ended` it does not.
    pub fn more(&mut self, ended: bool) -> Result<Vec<Line>, String> {
        let read = self.file.read_to_end(&mut self.left);
        read.map_err(|why| format!("the trace: {why}"))?;
        let (mut lines, mut at) = (Vec::new(), 0);
        while at < self.left.len() {
            match front(&self.left[at..]) {
                Front::Whole(line, length) => {
                    lines.push(line.ok_or("the trace has a note that says nothing")?);
                    at += length;
                    self.passing = false;
                }
                Front::Short if !ended => break,
                Front::Short | Front::Cut => {
                    self.cut += u64::from(!self.passing);
                    self.passing = true;
                    at += 1;
                }
            }
        }
        self.left.drain(..at);
        Ok(lines)
    }
}
