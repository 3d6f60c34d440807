//! A folder of its own for a test, and the command called in it.

use std::fs;
use std::path::PathBuf;
use std::process::{Command, Output, Stdio};
use std::sync::atomic::{AtomicU32, Ordering};

pub struct Place {
    pub folder: PathBuf,
}

/// What a call came to: its exit status, what it printed and what it complained of.
#[derive(Debug, PartialEq, Eq)]
pub struct Called {
    pub status: i32,
    pub out: String,
    pub told: String,
}

static PLACES: AtomicU32 = AtomicU32::new(0);

impl Place {
    pub fn new() -> Place {
        let number = PLACES.fetch_add(1, Ordering::Relaxed);
        let name = format!("lupaniele-command-{}-{number}", std::process::id());
        let folder = std::env::temp_dir().join(name);
        fs::create_dir_all(&folder).expect("a folder for the test");
        Place { folder }
    }

    pub fn write(&self, name: &str, bytes: impl AsRef<[u8]>) {
        fs::write(self.folder.join(name), bytes).expect("a file of the test");
    }

    pub fn read(&self, name: &str) -> Vec<u8> {
        fs::read(self.folder.join(name)).expect("a file of the test")
    }

    pub fn command(&self, words: &str) -> Command {
        let mut command = Command::new(env!("CARGO_BIN_EXE_lupaniele"));
        command
            .current_dir(&self.folder)
            .args(words.split_whitespace());
        command.stdin(Stdio::null());
        command
    }

    /// Calls it with these words.
    pub fn call(&self, words: &str) -> Called {
        called(self.command(words).output().expect("the command runs"))
    }

    /// The same, and all is well: what it printed.
    pub fn well(&self, words: &str) -> String {
        let called = self.call(words);
        assert_eq!(
            (called.status, called.told.as_str()),
            (0, ""),
            "{words}: {called:?}"
        );
        called.out
    }

    /// The same, and it complains with this status: what of.
    pub fn fails(&self, status: i32, words: &str) -> String {
        let called = self.call(words);
        assert_eq!(
            (called.status, called.out.as_str()),
            (status, ""),
            "{words}: {called:?}"
        );
        let told = called
            .told
            .strip_prefix("lupaniele: ")
            .expect("it says who complains");
        told.trim_end().into()
    }
}

pub fn called(output: Output) -> Called {
    Called {
        status: output.status.code().expect("it ends by itself"),
        out: String::from_utf8(output.stdout).expect("it prints UTF-8"),
        told: String::from_utf8(output.stderr).expect("it complains in UTF-8"),
    }
}

impl Drop for Place {
    fn drop(&mut self) {
        let _ = fs::remove_dir_all(&self.folder);
    }
}
