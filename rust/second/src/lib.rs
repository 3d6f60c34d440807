//! The card store a second time: plain Rust that follows the rules alone and
//! shares no code with the proved library, so that the two can be compared on
//! random and damaged input.
//!
//! Every function takes any input: what the rules refuse gets a number of rule
//! 5.1, and nothing panics. The library prints nothing.
//!
//! - [`format`], [`stamp`], [`language`], [`entry`], [`image`]: the two
//!   versions, stamps, pairs, the image and its soundness, a fresh image,
//!   conversion from version 1 to version 2.
//! - [`command`], [`guard`](Entry::take), [`store`]: commands and the answers
//!   0 to 9 and 17.
//! - [`desk`]: the text that a desk shows.
//! - [`texts`]: structured texts and whether two agree, numbers 18 to 20.
//! - [`proposal`]: what a desk knows and proposes, numbers 1 and 16.
//! - [`queue`]: the lock queue of a card, upgrades too, numbers 10 to 13 and
//!   15.
//! - [`lease`]: desks that fall silent, numbers 21 and 25.
//! - [`history`]: the history engine, number 22.
//! - [`log`], [`recovery`]: a desk's redo log, numbers 23, 24 and 26, and
//!   recovery from it. [`steps`]: the steps of a transaction.
//! - [`stream`], [`program`]: streams and the program's output.
//! - [`number`]: the names of the numbers. [`endian`]: little-endian numbers.
//!   [`random`]: random numbers for tests. [`short`], [`generate`], [`trials`]:
//!   short names, random inputs and trials, for tests and the comparison.

#![forbid(unsafe_code)]
#![deny(missing_docs)]
#![deny(
    clippy::arithmetic_side_effects,
    clippy::expect_used,
    clippy::indexing_slicing,
    clippy::panic,
    clippy::unwrap_used
)]

pub mod command;
pub mod desk;
pub mod endian;
pub mod entry;
pub mod format;
pub mod generate;
mod guard;
pub mod history;
pub mod image;
pub mod language;
pub mod lease;
pub mod log;
pub mod number;
pub mod program;
pub mod proposal;
pub mod queue;
pub mod random;
pub mod recovery;
pub mod short;
pub mod stamp;
pub mod steps;
pub mod store;
pub mod stream;
pub mod texts;
pub mod trials;

pub use command::{Act, Command, CommandFields};
pub use desk::{shown, Held};
pub use entry::{Entry, Translation};
pub use format::Format;
pub use history::History;
pub use image::{convert, is_sound, make_fresh, Layout};
pub use language::Language;
pub use lease::{Lease, Silence};
pub use log::{append, check, read_back};
pub use program::output;
pub use proposal::Known;
pub use queue::{Place, Queue, QueueAnswer, Turn};
pub use recovery::{recover, Recovered};
pub use stamp::{Mark, Mode, Pair, Session};
pub use store::{answer, Answer, ReplyFields};
pub use stream::{standing_at, walk, Reader, Standing, Walk};
