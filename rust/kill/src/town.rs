//! Where the files of a town stand, and how large it is.

use std::path::{Path, PathBuf};
use std::thread::sleep;
use std::time::{Duration, Instant};

use lupaniele::files::FileError;
use lupaniele::Version;
use second::Format;

/// The bytes of each log.
pub const LOG: usize = 8_192;
/// The room of each text.
pub const ROOM: u16 = 16;

/// How long somebody waits for a file that is in use.
const PATIENCE: Duration = Duration::from_secs(20);

/// A folder with one image, and for each desk a log and its last start. Transactions are of version 1, as logs are: in
/// version 2 who has the log is the desk, and writes nothing to it.
#[derive(Clone, Debug)]
pub struct Town {
    pub folder: PathBuf,
    pub desks: u16,
    pub cards: u16,
    pub version: Version,
}

impl Town {
    /// The version in the second program's words.
    pub fn format(&self) -> Format {
        match self.version {
            Version::One => Format::V1,
            Version::Two => Format::V2,
        }
    }

    pub fn image(&self) -> PathBuf {
        self.folder.join("cards")
    }

    pub fn trace(&self) -> PathBuf {
        self.folder.join("trace")
    }

    pub fn log(&self, desk: u16) -> PathBuf {
        self.folder.join(format!("log-{desk}"))
    }

    pub fn starts(&self, desk: u16) -> PathBuf {
        self.folder.join(format!("starts-{desk}"))
    }
}

/// In memory where there is such a place, since a killed process loses nothing that it has written, and syncing takes
/// long.
pub fn top() -> PathBuf {
    let memory = Path::new("/dev/shm");
    match memory.is_dir() {
        true => memory.to_path_buf(),
        false => std::env::temp_dir(),
    }
}

/// What one does with a file once nobody else has it.
pub fn waited<T>(mut open: impl FnMut() -> Result<T, FileError>) -> Result<T, String> {
    let since = Instant::now();
    loop {
        match open() {
            Err(FileError::InUse) if since.elapsed() < PATIENCE => {
                sleep(Duration::from_micros(50));
            }
            done => return done.map_err(|why| why.to_string()),
        }
    }
}
