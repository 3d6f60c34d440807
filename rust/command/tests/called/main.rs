//! The command, called as a person or a program calls it.

mod faults;
mod json;
mod place;
mod subcommands;
