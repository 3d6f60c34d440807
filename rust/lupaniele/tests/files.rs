//! Images and logs in files: one writer at a time, and what is closed is free. Desks with such files are killed by the
//! crate `kill`.

use std::fs;
use std::path::PathBuf;
use std::process::Command;
use std::sync::atomic::{AtomicBool, Ordering};

use lupaniele::files::{FileError, ImageFile, LogFile};
use lupaniele::{Image, Version};

/// A folder of its own with an image and a log.
fn folder(name: &str) -> PathBuf {
    let folder =
        std::env::temp_dir().join(format!("lupaniele-files-{name}-{}", std::process::id()));
    fs::create_dir_all(&folder).expect("a folder");
    let fresh = Image::make(Version::One, 2, 16).expect("an image of this shape");
    ImageFile::create(folder.join("cards"), fresh).expect("a new image");
    LogFile::create(folder.join("log"), 8_192).expect("a new log");
    folder
}

#[test]
fn one_writer() {
    let folder = folder("writer");
    let (image, log) = (folder.join("cards"), folder.join("log"));
    let held = (ImageFile::open(&image), LogFile::open(&log));
    assert!(held.0.is_ok() && held.1.is_ok());
    assert!(matches!(ImageFile::open(&image), Err(FileError::InUse)));
    assert!(matches!(LogFile::open(&log), Err(FileError::InUse)));
    drop(held);
    assert!(ImageFile::open(&image).is_ok());
    assert!(LogFile::open(&log).is_ok());
    fs::remove_dir_all(&folder).expect("the folder is gone");
}

/// A process that is just starting has every file of its parent open for a moment; what the parent closes is free all
/// the same.
#[test]
fn free_while_processes_start() {
    let folder = folder("starting");
    let done = AtomicBool::new(false);
    std::thread::scope(|threads| {
        threads.spawn(|| {
            while !done.load(Ordering::Relaxed) {
                let _ = Command::new("true").status();
            }
        });
        for _ in 0..2_000 {
            let opened = ImageFile::open(folder.join("cards"));
            if opened.is_err() {
                done.store(true, Ordering::Relaxed);
            }
            drop(opened.expect("nobody has it"));
        }
        done.store(true, Ordering::Relaxed);
    });
    fs::remove_dir_all(&folder).expect("the folder is gone");
}
