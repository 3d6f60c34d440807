//! Images, logs and start numbers in files: one writer at a time, an image that is saved whole or not at all, an append
//! that survives a cut. What is promised of them and what is not stands in docs/FILES.md. For systems with Unix files.

mod disk;
mod image_file;
mod log_file;
mod starts;

use std::fmt;
use std::io;

use crate::{Broken, Number};

pub use disk::read_bytes;
pub use image_file::ImageFile;
pub use log_file::LogFile;
pub use starts::next_start;

/// What goes wrong with a file.
///
/// ```
/// use lupaniele::files::{FileError, ImageFile};
/// let missing = ImageFile::open("/no/such/folder/cards");
/// assert!(matches!(missing, Err(FileError::Unreadable(_))));
/// ```
#[derive(Debug)]
pub enum FileError {
    /// Another process, or another part of this one, has it open.
    InUse,
    /// There is such a file already.
    Exists,
    /// It cannot be opened or read.
    Unreadable(io::Error),
    /// It is longer than what is looked for can be.
    TooLong {
        /// The most bytes that there can be.
        most: usize,
    },
    /// It has no sound image.
    Image(Broken),
    /// It has no good log.
    Log(Number),
    /// Something of the log is due: recover first.
    Due,
    /// It has no number of a start, or the last one is spent.
    Start,
    /// Nothing was changed: what stood there stands.
    NotSaved(io::Error),
    /// It may be changed or not: open it again, and see.
    Unknown(io::Error),
    /// What was done before ended unknown: open it again.
    OpenAgain,
}

impl fmt::Display for FileError {
    fn fmt(&self, to: &mut fmt::Formatter) -> fmt::Result {
        match self {
            FileError::InUse => to.write_str("the file is in use"),
            FileError::Exists => to.write_str("there is such a file already"),
            FileError::Unreadable(why) => write!(to, "the file cannot be read: {why}"),
            FileError::TooLong { most } => {
                write!(
                    to,
                    "the file has more than {most} bytes, the most that are right"
                )
            }
            FileError::Image(why) => write!(to, "the file has no sound image: {why}"),
            FileError::Log(number) => write!(to, "the file has no good log: {number}"),
            FileError::Due => to.write_str("something of the log is due: recover first"),
            FileError::Start => to.write_str("the file has no start number to give"),
            FileError::NotSaved(why) => write!(to, "nothing was saved: {why}"),
            FileError::Unknown(why) => write!(to, "it may be saved or not, open it again: {why}"),
            FileError::OpenAgain => to.write_str("an earlier fault left it unknown: open it again"),
        }
    }
}

impl std::error::Error for FileError {
    fn source(&self) -> Option<&(dyn std::error::Error + 'static)> {
        match self {
            FileError::Unreadable(why) | FileError::NotSaved(why) | FileError::Unknown(why) => {
                Some(why)
            }
            _ => None,
        }
    }
}
