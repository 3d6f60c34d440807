use std::fs;
use std::path::Path;

use super::FileError;
use super::disk::{Lock, replace};

/// The next start number of a desk, from a file that has the last one in decimal; 0 where there is none yet. It is kept
/// before it is given, so that no start is given twice (rule 10.9).
///
/// # Errors
///
/// Where the file is in use or cannot be written, has something else, or where 65,535 was given: the desk then needs
/// another number.
///
/// ```
/// use lupaniele::files::next_start;
/// # let folder = std::env::temp_dir().join(format!("lupaniele-starts-{}", std::process::id()));
/// # std::fs::create_dir_all(&folder)?;
/// let path = folder.join("starts");
/// assert_eq!(next_start(&path)?, 0);
/// assert_eq!(next_start(&path)?, 1);
/// # std::fs::remove_dir_all(&folder)?;
/// # Ok::<(), Box<dyn std::error::Error>>(())
/// ```
pub fn next_start(path: impl AsRef<Path>) -> Result<u16, FileError> {
    let path = path.as_ref();
    let _lock = Lock::on(path)?;
    let start = match fs::exists(path).map_err(FileError::Unreadable)? {
        false => 0,
        true => {
            let text = fs::read_to_string(path).map_err(FileError::Unreadable)?;
            let last: u16 = text.trim().parse().map_err(|_| FileError::Start)?;
            last.checked_add(1).ok_or(FileError::Start)?
        }
    };
    replace(path, format!("{start}\n").as_bytes())?;
    Ok(start)
}
