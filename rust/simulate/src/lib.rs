//! A town of desks over the proved library: many desks, several cards, lock
//! queues for each card, one store, a redo log for each desk. One seed draws one
//! history with every fault; after every step it is checked by plain Rust
//! written from `docs/RULES.md`.
//!
//! - [`library`]: the exported functions, and nothing in between.
//! - [`checks`]: the rules. [`tally`]: what is counted.
//! - [`town`]: the desks, managers, logs and the post, and what befalls them.
//!   [`rule`]: rules that a run may break.
//! - [`run`]: many towns. [`scenes`]: what happens, as the crate `story` tells and
//!   draws it.

#![deny(missing_docs)]

pub mod checks;
pub mod library;
mod named;
pub mod rule;
pub mod run;
pub mod scenes;
pub mod tally;
pub mod town;
