//! What the store keeps and takes, as text that people write and read: payloads, structured texts, commands, log
//! records, images and logs; and answers in words. Each is written in one way and read back to the same bytes; what
//! cannot be read is told by line, column and word, with what would be right. Nothing here decides a rule: the store
//! does, through the crate `lupaniele`.
//!
//! ```
//! use lupaniele::Version;
//!
//! let text = "cards 1 room 16\ncard 0\n  pair (1.1.0, 1.1.0)\n  original edition 1 text \"Tøm ved 205\"\n";
//! let image = forms::read_image(text)?;
//! assert_eq!(forms::image(&image), text);
//!
//! let wrong = forms::read_image("cards 1 room 60\n").unwrap_err();
//! assert_eq!(wrong.to_string(), "line 1, column 14: room 60: a text has room for a multiple of 16 bytes, such as 48 or 64");
//! # Ok::<(), forms::Wrong>(())
//! ```
#![forbid(unsafe_code)]
#![deny(missing_docs)]

mod command;
mod image;
mod line;
mod lines;
mod log;
mod parted;
mod payload;
mod quoted;
mod record;
mod screen;
mod shape;
mod stamps;
mod steps;
mod told;
mod wrong;

pub use command::{command, read_command};
pub use image::{image, read_image, take_image};
pub use line::Line;
pub use lines::{decoded, lines};
pub use log::{log, read_log};
pub use parted::{Parted, parted};
pub use payload::{payload, read_payload};
pub use quoted::quoted;
pub use record::{read_record, record};
pub use screen::{COLUMNS, cut, folded, padded, width};
pub use shape::{Fault, shape_fault};
pub use stamps::{mark, pair, stamp};
pub use steps::{read_steps, step, steps};
pub use told::{Told, number, told};
pub use wrong::{Got, Wrong};
