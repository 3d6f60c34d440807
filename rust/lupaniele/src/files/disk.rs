//! What the files of this module are made of: a lock beside a file, a file that is replaced whole, parts that are
//! written in place.

use std::ffi::OsString;
use std::fs::{self, File, OpenOptions, TryLockError};
use std::io::{self, Read, Write};
use std::path::{Path, PathBuf};

use super::FileError;

/// The path of a file that stands beside another.
fn beside(path: &Path, ending: &str) -> PathBuf {
    let mut name = OsString::from(path);
    name.push(ending);
    PathBuf::from(name)
}

/// Held as long as somebody has a file open for writing. It is on a file of its own, since the file itself is replaced.
#[derive(Debug)]
pub(super) struct Lock {
    held: File,
}

impl Lock {
    pub(super) fn on(path: &Path) -> Result<Lock, FileError> {
        let mut options = OpenOptions::new();
        let options = options.create(true).truncate(false).write(true);
        let held = options
            .open(beside(path, ".lock"))
            .map_err(FileError::Unreadable)?;
        match held.try_lock() {
            Ok(()) => Ok(Lock { held }),
            Err(TryLockError::WouldBlock) => Err(FileError::InUse),
            Err(TryLockError::Error(why)) => Err(FileError::Unreadable(why)),
        }
    }
}

/// Given up by name and not by closing the file alone: a process that this one is just starting has the file open too,
/// until it runs its program.
impl Drop for Lock {
    fn drop(&mut self) {
        let _ = self.held.unlock();
    }
}

/// The bytes of a file that has at most so many; of a longer one no more are read.
///
/// # Errors
///
/// Where it cannot be read, or is longer.
///
/// ```
/// use lupaniele::LARGEST_IMAGE;
/// use lupaniele::files::{FileError, read_bytes};
/// let endless = read_bytes("/dev/zero", LARGEST_IMAGE);
/// assert!(matches!(endless, Err(FileError::TooLong { most: LARGEST_IMAGE })));
/// ```
pub fn read_bytes(path: impl AsRef<Path>, most: usize) -> Result<Vec<u8>, FileError> {
    let mut bytes = Vec::new();
    let file = File::open(path).map_err(FileError::Unreadable)?;
    let read = file.take(most as u64 + 1).read_to_end(&mut bytes);
    read.map_err(FileError::Unreadable)?;
    match bytes.len() {
        length if length > most => Err(FileError::TooLong { most }),
        _ => Ok(bytes),
    }
}

/// Replaces a file, or makes it: the whole of the new bytes or what was there before, whenever the power fails. A new
/// file is written and synced, takes the name, and the folder is synced.
pub(super) fn replace(path: &Path, bytes: &[u8]) -> Result<(), FileError> {
    let new = beside(path, ".new");
    let written = File::create(&new).and_then(|mut file| {
        file.write_all(bytes)?;
        file.sync_all()
    });
    written
        .and_then(|()| fs::rename(&new, path))
        .map_err(FileError::NotSaved)?;
    sync_folder(path).map_err(FileError::Unknown)
}

fn sync_folder(path: &Path) -> io::Result<()> {
    let folder = match path.parent() {
        Some(folder) if !folder.as_os_str().is_empty() => folder,
        _ => Path::new("."),
    };
    File::open(folder)?.sync_all()
}
