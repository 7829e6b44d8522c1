// Made by tools/erase of crates/mlsign_program/src/process.rt. Change that, not this.
//! A run, from the words of its process to its exit status.

use crate::standing::*;

use crate::proved::mlsign_program::commands;
use crate::proved::mlsign_program::text::printable;
use crate::proved::mlsign_program::verify::verify;
use crate::proved::mlsign_program::words::mlsign;
use anyhow::{Context, Error, bail};
use rattle_std::alloc::{AllocError, Global};
use rattle_std::convert::AsStr;
use rattle_std::env::{self, Env};
use rattle_std::io::{self, ErrorKind};
use rattle_std::process::ExitCode;

/// Runs the call that the words of the process make. The exit status is 0 if it was done, or all signatures are valid; 1 if a
/// signature is invalid; and 2 for anything else. In these two cases a line on standard error says which.
pub fn run(rt: &HostRuntime) -> ExitCode {
    let answer = answer_process(rt);
    match &answer {
        Ok(_) => {}
        Err(error) => {
            let _ = match line_of(rt.alloc(), error) {
                Ok(line) => rt.eprintln(format_args!("mlsign: {line}")),
                Err(_) => rt.eprintln("mlsign: out of memory"),
            };
        }
    }
    ExitCode::from(status(&answer))
}

/// The exit status of a result.
fn status(answer: &Result<bool, Error>) -> u8 {
    match answer {
        Ok(true) => 0,
        Ok(false) => 1,
        Err(_) => 2,
    }
}

/// The text of an error, on one line.
pub fn line_of(alloc: Global, error: &Error) -> Result<String, AllocError> {
    let text = try_format!(alloc; "{error:#}")?;
    printable(alloc, text.as_str())
}

/// Carries out the words of the process after the program's name.
fn answer_process(rt: &HostRuntime) -> Result<bool, Error> {
    let words = match env::args(rt) {
        Err(error) if error.kind() == ErrorKind::InvalidData => return Err(unreadable(rt)?),
        words => words?,
    };
    let words: Vec<String> = words.skip(1).collect_in(rt.alloc()).map_err(io::Error::from)?;
    answer(rt, words.as_slice())
}

/// Names the first word of the process that is not UTF-8.
fn unreadable(rt: &HostRuntime) -> Result<Error, Error> {
    let mut room = [0; 4096];
    for place in 0..usize::MAX {
        let Ok(size) = rt.arg(place, &mut room) else {
            break;
        };
        let word = &room[..size];
        if str::from_utf8(word).is_err() {
            let word = try_format!(rt.alloc(); "{}: this word is not UTF-8", word.escape_ascii());
            return Ok(Error::msg(word.map_err(io::Error::from)?));
        }
    }
    Ok(Error::msg("a word is not UTF-8"))
}

/// Carries out these words: false for an invalid signature, of which standard error says, and true for everything else
/// that was done.
pub fn answer<S: AsStr>(rt: &HostRuntime, words: &[S]) -> Result<bool, Error> {
    let command = mlsign(rt.alloc()).map_err(io::Error::from)?;
    let matches = match command.try_get_matches_from(words) {
        Ok(matches) => matches,
        Err(error) if error.use_stderr() => return Err(wrong_words(rt.alloc(), words, &error)?),
        Err(error) => {
            error.print(rt).context("standard output")?;
            return Ok(true);
        }
    };
    match matches.subcommand() {
        Some(("keygen", words)) => commands::keygen(rt, words)?,
        Some(("public", words)) => commands::public(rt, words)?,
        Some(("sign", words)) => commands::sign(rt, words)?,
        Some(("verify", words)) => return verify(rt, words),
        Some(("show", words)) => commands::show(rt, words)?,
        Some(("convert", words)) => commands::convert(rt, words)?,
        _ => bail!("no such command"),
    }
    Ok(true)
}

/// What is wrong with the words of a call, which are shown as printable ones.
fn wrong_words<S: AsStr>(alloc: Global, words: &[S], error: &clap::Error) -> io::Result<Error> {
    let mut shown = Vec::new(alloc);
    for word in words {
        shown.push(printable(alloc, word.as_str())?)?;
    }
    let mut line = in_a_line(alloc, error)?;
    let parsed = mlsign(alloc)?.try_get_matches_from(shown.as_slice());
    if let Err(error) = &parsed {
        line = in_a_line(alloc, error)?;
    }
    drop(parsed);
    Ok(Error::msg(try_format!(alloc; "{line}; try mlsign --help")?))
}

/// The text of an error about words: the lines of an error before the first empty one, joined.
fn in_a_line(alloc: Global, error: &clap::Error) -> io::Result<String> {
    let text = try_format!(alloc; "{error}")?;
    let mut joined = String::new(alloc);
    for line in text.as_str().lines() {
        if line.is_empty() {
            break;
        }
        if !joined.is_empty() {
            joined.push(' ')?;
        }
        joined.push_str(line.trim().trim_start_matches("error: "))?;
    }
    Ok(joined)
}
