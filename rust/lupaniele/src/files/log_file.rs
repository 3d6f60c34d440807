use std::fs::{self, File, OpenOptions};
use std::io;
use std::os::unix::fs::FileExt;
use std::path::{Path, PathBuf};

use super::FileError;
use super::disk::{Lock, read_bytes, replace};
use crate::desk::Journal;
use crate::{AppendError, LARGEST_LOG, Log, LogPart, Number, Record};

/// A desk's log in a file, with one writer. An append returns when its record is kept; if the power fails before, the
/// log reads back with the record or without it.
///
/// ```
/// use lupaniele::files::LogFile;
/// use lupaniele::Record;
///
/// # let folder = std::env::temp_dir().join(format!("lupaniele-log-{}", std::process::id()));
/// # std::fs::create_dir_all(&folder)?;
/// let path = folder.join("log");
/// let mut file = LogFile::create(&path, 4_096)?;
/// file.append(&Record::Begin(1))?;
/// drop(file);
/// assert!(LogFile::open(&path)?.log().records().eq([Record::Begin(1)]));
/// # std::fs::remove_dir_all(&folder)?;
/// # Ok::<(), Box<dyn std::error::Error>>(())
/// ```
#[derive(Debug)]
pub struct LogFile {
    path: PathBuf,
    log: Log,
    file: File,
    unknown: bool,
    lock: Lock,
}

/// Where the parts of an append go: a file, and in tests a disk that forgets what is not synced.
trait Parts {
    fn write(&mut self, at: usize, bytes: &[u8]) -> io::Result<()>;
    fn sync(&mut self) -> io::Result<()>;
}

impl Parts for &File {
    fn write(&mut self, at: usize, bytes: &[u8]) -> io::Result<()> {
        self.write_all_at(bytes, at as u64)
    }

    fn sync(&mut self) -> io::Result<()> {
        self.sync_data()
    }
}

/// Body and line, both synced before the count is written; the count, synced before the append returns.
fn append_to(
    log: &mut Log,
    parts: &mut impl Parts,
    record: &Record,
) -> Result<(), AppendError<io::Error>> {
    log.append_durably(record, |part, at, bytes| {
        parts.write(at, bytes)?;
        match part {
            LogPart::Body => Ok(()),
            LogPart::Line | LogPart::Count => parts.sync(),
        }
    })
}

impl LogFile {
    /// Makes a file with an empty log of so many bytes.
    ///
    /// # Errors
    ///
    /// Where there is such a file already, it cannot be made, or no log has so many bytes.
    ///
    /// ```
    /// use lupaniele::files::{FileError, LogFile};
    /// # let folder = std::env::temp_dir().join(format!("lupaniele-log-created-{}", std::process::id()));
    /// # std::fs::create_dir_all(&folder)?;
    /// let short = LogFile::create(folder.join("log"), 7);
    /// assert!(matches!(short, Err(FileError::Log(_))));
    /// # std::fs::remove_dir_all(&folder)?;
    /// # Ok::<(), Box<dyn std::error::Error>>(())
    /// ```
    pub fn create(path: impl AsRef<Path>, length: usize) -> Result<LogFile, FileError> {
        let log = Log::empty(length).map_err(FileError::Log)?;
        LogFile::create_with(path, &log)
    }

    /// Makes a file with this log.
    ///
    /// # Errors
    ///
    /// Where there is such a file already, or it cannot be made.
    ///
    /// ```
    /// use lupaniele::Log;
    /// use lupaniele::files::LogFile;
    /// # let folder = std::env::temp_dir().join(format!("lupaniele-log-kept-{}", std::process::id()));
    /// # std::fs::create_dir_all(&folder)?;
    /// let log = Log::empty(4_096)?;
    /// assert_eq!(LogFile::create_with(folder.join("log"), &log)?.log(), &log);
    /// # std::fs::remove_dir_all(&folder)?;
    /// # Ok::<(), Box<dyn std::error::Error>>(())
    /// ```
    pub fn create_with(path: impl AsRef<Path>, log: &Log) -> Result<LogFile, FileError> {
        let path = path.as_ref();
        let lock = Lock::on(path)?;
        if fs::exists(path).map_err(FileError::Unreadable)? {
            return Err(FileError::Exists);
        }
        replace(path, log.bytes())?;
        LogFile::under(lock, path)
    }

    /// Opens the file of a log.
    ///
    /// # Errors
    ///
    /// Where it is in use, cannot be read, or has no good log.
    ///
    /// ```
    /// use lupaniele::files::{FileError, LogFile};
    /// # let folder = std::env::temp_dir().join(format!("lupaniele-log-opened-{}", std::process::id()));
    /// # std::fs::create_dir_all(&folder)?;
    /// assert!(matches!(LogFile::open(folder.join("log")), Err(FileError::Unreadable(_))));
    /// # std::fs::remove_dir_all(&folder)?;
    /// # Ok::<(), Box<dyn std::error::Error>>(())
    /// ```
    pub fn open(path: impl AsRef<Path>) -> Result<LogFile, FileError> {
        let lock = Lock::on(path.as_ref())?;
        LogFile::under(lock, path.as_ref())
    }

    fn under(lock: Lock, path: &Path) -> Result<LogFile, FileError> {
        let bytes = read_bytes(path, LARGEST_LOG)?;
        let log = Log::check(bytes).map_err(FileError::Log)?;
        let file = OpenOptions::new().write(true).open(path);
        Ok(LogFile {
            path: path.to_path_buf(),
            log,
            file: file.map_err(FileError::Unreadable)?,
            unknown: false,
            lock,
        })
    }

    /// The log as it was last kept.
    ///
    /// ```
    /// use lupaniele::files::LogFile;
    /// # let folder = std::env::temp_dir().join(format!("lupaniele-its-log-{}", std::process::id()));
    /// # std::fs::create_dir_all(&folder)?;
    /// let file = LogFile::create(folder.join("log"), 4_096)?;
    /// assert_eq!(file.log().count(), 0);
    /// # std::fs::remove_dir_all(&folder)?;
    /// # Ok::<(), Box<dyn std::error::Error>>(())
    /// ```
    #[must_use]
    pub fn log(&self) -> &Log {
        &self.log
    }

    /// The log begins again, as [`Log::begun_again`] says: the file is replaced whole.
    ///
    /// # Errors
    ///
    /// [`FileError::Due`] where something is due: recover first. Where the file is not replaced, or that is not known.
    ///
    /// ```
    /// use lupaniele::files::LogFile;
    /// use lupaniele::Record;
    /// # let folder = std::env::temp_dir().join(format!("lupaniele-again-{}", std::process::id()));
    /// # std::fs::create_dir_all(&folder)?;
    /// # let path = folder.join("log");
    /// let mut file = LogFile::create(&path, 4_096)?;
    /// file.append(&Record::Begin(1))?;
    /// file.append(&Record::Begin(2))?;
    /// let mut file = file.begin_again()?;
    /// assert!(file.log().records().eq([Record::Begin(2)]));
    /// # std::fs::remove_dir_all(&folder)?;
    /// # Ok::<(), Box<dyn std::error::Error>>(())
    /// ```
    pub fn begin_again(self) -> Result<LogFile, FileError> {
        if self.unknown {
            return Err(FileError::OpenAgain);
        }
        let log = self.log.begun_again().ok_or(FileError::Due)?;
        replace(&self.path, log.bytes())?;
        LogFile::under(self.lock, &self.path)
    }

    /// Appends a record, and returns when it is kept.
    ///
    /// # Errors
    ///
    /// Where it was not appended; after a fault of the file every further append says so, until it is opened again.
    ///
    /// ```
    /// use lupaniele::files::LogFile;
    /// use lupaniele::{AppendError, Number, Record};
    /// # let folder = std::env::temp_dir().join(format!("lupaniele-log-append-{}", std::process::id()));
    /// # std::fs::create_dir_all(&folder)?;
    /// let mut file = LogFile::create(folder.join("log"), 4_096)?;
    /// let refused = file.append(&Record::Commit(1)); // nothing is open
    /// assert!(matches!(refused, Err(AppendError::Refused(Number::BadLog))));
    /// # std::fs::remove_dir_all(&folder)?;
    /// # Ok::<(), Box<dyn std::error::Error>>(())
    /// ```
    pub fn append(&mut self, record: &Record) -> Result<(), AppendError<FileError>> {
        if self.unknown {
            return Err(AppendError::NotAppended(FileError::OpenAgain));
        }
        let appended = append_to(&mut self.log, &mut &self.file, record);
        self.unknown = matches!(
            appended,
            Err(AppendError::NotAppended(_) | AppendError::Unknown(_))
        );
        appended.map_err(|why| match why {
            AppendError::Refused(number) => AppendError::Refused(number),
            AppendError::NotAppended(why) => AppendError::NotAppended(FileError::NotSaved(why)),
            AppendError::Unknown(why) => AppendError::Unknown(FileError::Unknown(why)),
        })
    }

    /// Appends a record as far as the first so many stores of one byte go, as where the power fails there (rules 11.9
    /// to 11.12): to try what a cut leaves.
    ///
    /// # Errors
    ///
    /// Where the file could not be written.
    ///
    /// ```
    /// use lupaniele::files::LogFile;
    /// use lupaniele::{Number, Record};
    /// # let folder = std::env::temp_dir().join(format!("lupaniele-log-cut-{}", std::process::id()));
    /// # std::fs::create_dir_all(&folder)?;
    /// let path = folder.join("log");
    /// let mut file = LogFile::create(&path, 4_096)?;
    /// assert_eq!(file.append_cut(&Record::Begin(1), 15)?, Number::AppendCut);
    /// drop(file);
    /// assert_eq!(LogFile::open(&path)?.log().count(), 0);
    /// # std::fs::remove_dir_all(&folder)?;
    /// # Ok::<(), Box<dyn std::error::Error>>(())
    /// ```
    pub fn append_cut(&mut self, record: &Record, stores: u64) -> Result<Number, FileError> {
        if self.unknown {
            return Err(FileError::OpenAgain);
        }
        let number = self.log.append_cut(record, stores);
        let mut file = &self.file;
        let written = Parts::write(&mut file, 0, self.log.bytes());
        let kept = written.and_then(|()| file.sync());
        self.unknown = kept.is_err();
        kept.map_err(FileError::Unknown)?;
        Ok(number)
    }
}

impl Journal for LogFile {
    type Error = FileError;

    fn log(&self) -> &[u8] {
        self.log.bytes()
    }

    fn append(&mut self, record: &Record) -> Result<(), AppendError<FileError>> {
        LogFile::append(self, record)
    }
}

#[cfg(test)]
mod tests {
    use super::*;
    use crate::Side;
    use second::random::Random;

    /// A disk that keeps, of the bytes written since the last sync, any when the power fails; it fails after so many
    /// writes and syncs.
    struct Forgetful {
        kept: Vec<u8>,
        written: Vec<(usize, u8)>,
        left: u32,
    }

    impl Forgetful {
        fn of(log: &Log, left: u32) -> Forgetful {
            Forgetful {
                kept: log.bytes().to_vec(),
                written: Vec::new(),
                left,
            }
        }

        fn step(&mut self) -> io::Result<()> {
            let left = self.left.checked_sub(1);
            self.left = left.ok_or(io::ErrorKind::BrokenPipe)?;
            Ok(())
        }

        /// What is read back.
        fn after_the_cut(mut self, random: &mut Random) -> Vec<u8> {
            for (at, byte) in self.written.drain(..) {
                if random.one_in(2) {
                    self.kept[at] = byte;
                }
            }
            self.kept
        }
    }

    impl Parts for Forgetful {
        fn write(&mut self, at: usize, bytes: &[u8]) -> io::Result<()> {
            self.written.extend(
                bytes
                    .iter()
                    .enumerate()
                    .map(|(place, byte)| (at + place, *byte)),
            );
            self.step()
        }

        fn sync(&mut self) -> io::Result<()> {
            self.step()?;
            for (at, byte) in self.written.drain(..) {
                self.kept[at] = byte;
            }
            Ok(())
        }
    }

    #[test]
    fn an_append_survives_a_disk_that_forgets() {
        let mut random = Random::new(11);
        let mut seen = [0; 3];
        for _ in 0..20_000 {
            let mut log = Log::empty(4_096).expect("a log of this length");
            let text = random.bytes(40);
            let records = [
                Record::Begin(1),
                Record::Update {
                    card: 0,
                    side: Side::Original,
                    text: &text,
                },
                Record::Commit(1),
            ];
            let mut disk = Forgetful::of(&log, random.below(16) as u32);
            let (mut told, mut tried) = (0, 0);
            for record in &records {
                tried += 1;
                if append_to(&mut log, &mut disk, record).is_err() {
                    break;
                }
                told += 1;
            }
            let back = Log::check(disk.after_the_cut(&mut random)).expect("a good log");
            let count = usize::from(back.count());
            assert!(told <= count && count <= tried, "{told} {count} {tried}");
            assert!(back.records().eq(records.into_iter().take(count)));
            // all told of; cut and not there; cut and there
            seen[match (told == tried, count == tried) {
                (true, _) => 0,
                (false, false) => 1,
                (false, true) => 2,
            }] += 1;
        }
        assert!(seen.iter().all(|count| *count > 100), "{seen:?}");
    }

    #[test]
    fn what_the_log_refuses_is_not_written() {
        let mut log = Log::empty(4_096).expect("a log of this length");
        let mut disk = Forgetful::of(&log, 9);
        let refused = append_to(&mut log, &mut disk, &Record::Commit(1));
        assert!(matches!(refused, Err(AppendError::Refused(Number::BadLog))));
        assert!(disk.written.is_empty() && disk.left == 9);
    }
}
