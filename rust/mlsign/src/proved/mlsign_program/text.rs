// Made by tools/erase of crates/mlsign_program/src/text.rt. Change that, not this.
//! Lines for people.

use crate::standing::*;

use anyhow::Error;
use rattle_std::alloc::{AllocError, Global};
use std::fmt::Display;

/// An error about a file, which keeps its reason however long the name is. (A message of `bail!` is cut.)
pub(crate) fn about<R: Display>(path: &str, reason: R) -> Error {
    Error::msg(reason).context(path)
}

/// A text on one line: a character that cannot be printed is escaped, as `\n` or `\u{1b}`.
pub(crate) fn printable(alloc: Global, text: &str) -> Result<String, AllocError> {
    let mut line = String::new(alloc);
    for character in text.chars() {
        if matches!(character, '\\' | '\'' | '"') {
            line.push(character)?;
            continue;
        }
        for part in character.escape_debug() {
            line.push(part)?;
        }
    }
    Ok(line)
}

/// Says something of a file on standard error that is no failure.
pub(crate) fn note(rt: &HostRuntime, path: &str, what: &str) {
    let _ = match printable(rt.alloc(), path) {
        Ok(path) => rt.eprintln(format_args!("mlsign: note: {path} {what}")),
        Err(_) => rt.eprintln("mlsign: note: out of memory"),
    };
}
