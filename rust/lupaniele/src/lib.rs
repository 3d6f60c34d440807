//! The proved card store for Rust: images, commands, lock queues, what desks know and propose, redo logs, the history
//! engine, structured texts. Every answer comes from the exported functions of the proved library; nothing here decides
//! a rule. Numbers have their names ([`Number`]), bytes their builders ([`Command`], [`Record`], [`Text`]); rules are
//! those of docs/RULES.md.
//!
//! ```
//! use lupaniele::{Command, Image, Language, Number, Pair, Stamp, Version};
//!
//! let mut image = Image::make(Version::One, 1, 16)?;
//! let stamp = Stamp::new(1, 1, 0);
//! let pair = Pair::new(stamp, stamp);
//! let written = image.answer(&Command::write_original(0, b"205").exclusive(pair), &mut [])?.accepted()?;
//! let translation = Command::write_translation(0, Language::First, written.edition, b"401");
//! image.answer(&translation.exclusive(pair), &mut [])?.accepted()?;
//!
//! let mut reply = [0; 16];
//! let answer = image.answer(&Command::read_translation(0, Language::First).shared(pair), &mut reply)?;
//! assert_eq!(answer.number, Number::Accepted);
//! assert_eq!(answer.text(&reply), b"401");
//! # Ok::<(), Box<dyn std::error::Error>>(())
//! ```
#![deny(unsafe_code)]
#![deny(missing_docs)]

mod answer;
mod broken;
mod bytes;
mod cards;
mod command;
mod contents;
pub mod desk;
mod due;
pub mod files;
mod history;
mod image;
mod kinds;
mod known;
mod log;
mod number;
mod number_table;
mod output;
mod queue;
pub mod raw;
mod shown;
mod stamp;
mod stream;
#[allow(missing_docs)] // each is said in include/lupaniele.h
pub mod sys;
mod text;

pub use answer::Answer;
pub use broken::{Broken, BrokenCard};
pub use cards::{Card, Cards};
pub use command::{Action, BuildError, Command, Draft, ParseError};
pub use contents::Contents;
pub use history::History;
pub use image::{Image, LARGEST_IMAGE, MOST_CARDS, rooms};
pub use kinds::{Act, Language, Mode, Version};
pub use known::Known;
pub use log::{AppendError, LARGEST_LOG, LOG_TABLE, Log, LogPart, Record, Side, Stopped};
pub use number::Number;
pub use output::{OUTPUT_BYTES, output, output_into};
pub use queue::{Lease, Queue, QueueAnswer};
pub use shown::Held;
pub use stamp::{DeskId, Mark, NotAStamp, Pair, Stamp};
pub use stream::Stream;
pub use text::{DEEPEST, Disagreement, NEAR, Step, Text, TextError, Unit, agree};
