//! The proved library and the second program side by side: both get the same
//! input, and the first difference stops the run and prints the input.
//!
//! - [`proved`]: the proved library by its exported functions.
//! - [`run`]: how a difference is told. [`coverage`]: what a run counts.
//! - [`answers`], [`images`], [`lists`], [`queues`], [`desks`], [`streams`],
//!   [`texts`], [`logs`], [`program`]: what is compared, part by part.
//! - [`outputs`]: what the program prints, whole and in process. [`inputs`]:
//!   inputs and outputs as files.
//! - [`upgrades`]: lists of turns from an empty queue, in which standing desks
//!   ask again. [`lapses`]: desks that fall silent.
//! - [`history`]: the history engine, beside the store. [`swaps`]: commands for
//!   different cards in another order.
//! - [`proposals`]: what a desk knows and proposes. [`systems`]: random systems
//!   of desks, queues and a store, by the rules and with one rule broken.
//! - [`pairs`]: commands with two pairs, edge by edge. [`languages`]: commands
//!   of version 2, and each version's images before the other.
//! - [`conversions`]: from version 1 to version 2.
//! - [`trials`]: the trials, by both.
//! - [`sessions`]: lists of commands as desks send them, sessions interleaved.
//! - [`demand3`]: the sentences of demand 3, over a list of events.

#![deny(missing_docs)]

pub mod answers;
pub mod conversions;
pub mod coverage;
pub mod demand3;
pub mod desks;
pub mod history;
pub mod images;
pub mod inputs;
pub mod languages;
pub mod lapses;
pub mod lists;
pub mod logs;
pub mod outputs;
pub mod pairs;
pub mod program;
pub mod proposals;
pub mod proved;
pub mod queues;
pub mod run;
pub mod runs;
pub mod sessions;
pub mod streams;
pub mod swaps;
pub mod systems;
pub mod texts;
pub mod trials;
pub mod upgrades;
