// Made by tools/erase of crates/mlsign_program/src/lib.rt. Change that, not this.
//! The program `mlsign` as a library: from the words of its process to an exit status.

use crate::standing::*;

mod commands;
mod files;
mod hints;
mod keyfile;
mod labels;
mod places;
mod process;
mod progress;
mod sums;
mod text;
mod verify;
mod words;

pub use process::{answer, line_of, run};
