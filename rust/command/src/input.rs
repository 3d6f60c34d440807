//! Files that are read: never more of one than can be right, and with words for what is not.

use std::io::{self, Read};
use std::path::Path;

use lupaniele::files::{FileError, ImageFile, LogFile, read_bytes};
use lupaniele::{Broken, Image, LARGEST_IMAGE, LARGEST_LOG, LOG_TABLE, Log};

use crate::outcome::{Failed, some};

/// More bytes than these has no list that is read: some ten thousand long commands.
pub const LARGEST_TEXT: usize = 1 << 24;

/// The bytes of a file; `-` is standard input.
pub fn bytes(path: &Path, most: usize, what: &str) -> Result<Vec<u8>, Failed> {
    let read = match path.to_str() {
        Some("-") => from_stdin(most),
        _ => read_bytes(path, most),
    };
    read.map_err(|why| unread(path, &why, what))
}

fn from_stdin(most: usize) -> Result<Vec<u8>, FileError> {
    let mut bytes = Vec::new();
    let read = io::stdin().take(most as u64 + 1).read_to_end(&mut bytes);
    read.map_err(FileError::Unreadable)?;
    match bytes.len() {
        length if length > most => Err(FileError::TooLong { most }),
        _ => Ok(bytes),
    }
}

/// Why a file cannot be read, in words.
fn unread(path: &Path, why: &FileError, what: &str) -> Failed {
    let path = path.display();
    match why {
        FileError::Unreadable(why) => Failed::unusable(match why.kind() {
            io::ErrorKind::NotFound => format!("{path}: there is no such file"),
            io::ErrorKind::IsADirectory => format!("{path}: this is a folder; name {what} in it"),
            io::ErrorKind::PermissionDenied => format!("{path}: it may not be read by this user"),
            _ => format!("{path}: it cannot be read: {why}"),
        }),
        FileError::TooLong { most } => {
            let told = format!("{path}: it has more than {most} bytes, the most that {what} has");
            Failed::refused(told)
        }
        why => Failed::unusable(format!("{path}: {why}")),
    }
}

/// Why a file that was read cannot be opened to be changed.
fn unlocked(path: &Path, why: &FileError) -> Failed {
    let path = path.display();
    Failed::unusable(match why {
        FileError::InUse => format!("{path}: it is in use; try again when the other is done"),
        FileError::Unreadable(why) => format!("{path}: it cannot be changed here: {why}"),
        why => format!("{path}: {why}"),
    })
}

/// The image in a file, without a lock: what is saved there is saved whole.
pub fn image(path: &Path) -> Result<Image, Failed> {
    let bytes = bytes(path, LARGEST_IMAGE, "an image");
    let bytes = bytes.map_err(|failed| failed.by_rule("2.2"))?;
    Image::check(bytes.clone()).map_err(|broken| {
        let told = format!("{}: {}", path.display(), unsound(&bytes, &broken));
        Failed::refused(told)
    })
}

/// The file of an image, to change it.
pub fn image_file(path: &Path) -> Result<ImageFile, Failed> {
    image(path)?; // nothing is locked for a file that is none
    ImageFile::open(path).map_err(|why| unlocked(path, &why))
}

/// Why bytes are no sound image: what they are, or the first rule that they break and where.
pub fn unsound(bytes: &[u8], broken: &Broken) -> String {
    if bytes.is_empty() {
        return "the file is empty; `lupaniele make` makes an image".into();
    }
    if Log::check(bytes).is_ok() {
        return "this is a log, not an image; `lupaniele log show` shows it".into();
    }
    if bytes.starts_with(b"cards ") {
        return "this is the text of an image; `lupaniele make --from` makes the image of it"
            .into();
    }
    let (byte, rule) = (broken.place(bytes), broken.rule());
    match broken {
        Broken::Card { card, why } => {
            format!("not sound: card {card}, byte {byte}: {why} (rule {rule})")
        }
        broken => format!("not sound: byte {byte}: {broken} (rule {rule})"),
    }
}

/// The log in a file.
pub fn log(path: &Path) -> Result<Log, Failed> {
    let bytes = bytes(path, LARGEST_LOG, "a log");
    let bytes = bytes.map_err(|failed| failed.by_rule("11.1"))?;
    Log::check(bytes.clone()).map_err(|_| {
        let told = format!("{}: {}", path.display(), bad_log(&bytes));
        Failed::refused(told)
    })
}

/// The file of a log, to append to it.
pub fn log_file(path: &Path) -> Result<LogFile, Failed> {
    log(path)?;
    LogFile::open(path).map_err(|why| unlocked(path, &why))
}

/// Why bytes are no good log.
fn bad_log(bytes: &[u8]) -> String {
    if bytes.is_empty() {
        return "the file is empty; `lupaniele log make` makes a log".into();
    }
    if Image::check(bytes).is_ok() {
        return "this is an image, not a log; `lupaniele show` shows it".into();
    }
    if bytes.starts_with(b"log of ") {
        return "this is the text of a log; `lupaniele log make --from` makes the log of it".into();
    }
    if bytes.len() < LOG_TABLE {
        return format!(
            "not good: {} bytes, and a log has at least {LOG_TABLE} (rule 11.1)",
            bytes.len()
        );
    }
    "not good: its count, a line, a body's sum or the order of its records (rule 11.6)".into()
}

/// The text in a file, or why it is none.
pub fn text(path: &Path, what: &str) -> Result<String, Failed> {
    let bytes = bytes(path, LARGEST_TEXT, what).map_err(Failed::wrong_use)?;
    let told = |told: String| Failed::unusable(format!("{}: {told}", path.display()));
    let other = match Image::check(&bytes[..]) {
        Ok(_) => Some("an image"),
        Err(Broken::Header) => Log::check(&bytes[..]).is_ok().then_some("a log"),
        Err(_) => Some("an image that is not sound"),
    };
    if let Some(other) = other {
        return Err(told(format!("this is {other}, and {what} is due, a text")));
    }
    if bytes.is_empty() {
        return Err(told(format!("the file is empty, and {what} is due")));
    }
    let text = forms::decoded(&bytes).map_err(|wrong| told(wrong.to_string()))?;
    Ok(text.to_string())
}

/// What is wrong in a text, with its file.
pub fn wrong(path: &Path) -> impl Fn(forms::Wrong) -> Failed {
    let path = path.display().to_string();
    move |wrong| Failed::unusable(format!("{path}: {wrong}"))
}

/// What an image is, in a few words.
pub fn described(image: &Image) -> String {
    let (cards, bytes) = (some(image.count(), "card"), image.bytes().len());
    format!(
        "{}, {cards}, room {}, {bytes} bytes",
        image.version(),
        image.room()
    )
}
