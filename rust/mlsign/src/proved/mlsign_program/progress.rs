// Made by tools/erase of crates/mlsign_program/src/progress.rt. Change that, not this.
//! A message that is read, with a line that says how far.

use crate::standing::*;

use anyhow::Error;
use mlsign_engine::CommandFault;
use rattle_std::io::{self, Read};
use rattle_std::time::Instant;

/// A message of at least so many bytes has such a line.
const LARGE: u64 = 16_777_216;

/// A full bar, which fits a terminal of 20 columns.
const BAR: &str = "##########";

/// A reader that shows on standard error how much of a large message was read, and wipes that at its end: of a file a bar, and of a
/// pipe how many megabytes, and how many in a second.
pub(crate) struct Progress<'a, I> {
    reader: I,
    rt: &'a HostRuntime,
    /// Whether something is shown.
    shows: bool,
    /// How many bytes the message has, if that is known.
    size: Option<u64>,
    started: Option<Instant>,
    read: u64,
    shown: Option<u64>,
    /// The number of the error by which the system failed to read.
    failed: Option<i32>,
}

impl<'a, I> Progress<'a, I> {
    /// A reader of a message of this size, if it is known, which shows how far it is if that is wanted.
    pub(crate) fn new(
        rt: &'a HostRuntime,
        reader: I,
        shows: bool,
        size: Option<u64>,
    ) -> Progress<'a, I> {
        Progress {
            reader,
            rt,
            shows,
            size,
            started: if shows { Instant::now(rt).ok() } else { None },
            read: 0,
            shown: None,
            failed: None,
        }
    }

    /// Why the message with this name was not read.
    pub(crate) fn fault(&self, message: &str) -> Error {
        match self.failed {
            Some(number) => Error::from(io::Error::from_raw_os_error(number)).context(
                "the message was not read",
            ),
            None => Error::from(CommandFault::Message),
        }
        .context(message)
    }

    /// Shows how far it is after so many more bytes, if that is not shown already, and wipes it after none.
    fn show(&mut self, count: usize) {
        if !self.shows {
            return;
        }
        if count == 0 {
            if self.shown.is_some() {
                let _ = self.rt.eprint("\r\u{1b}[K");
            }
            self.shown = None;
            return;
        }
        self.read = self.read.saturating_add(count as u64);
        match self.size {
            Some(size) if size >= LARGE => self.show_part(size),
            Some(_) => {}
            None => self.show_speed(),
        }
    }

    /// Shows a bar of a message of this size.
    fn show_part(&mut self, size: u64) {
        if size == 0 {
            return;
        }
        let percent = (self.read.min(size) as u128 * 100 / size as u128) as usize;
        if self.shown == Some(percent as u64) {
            return;
        }
        self.shown = Some(percent as u64);
        let bar = BAR.get(..percent / 10).unwrap_or(BAR);
        let _ = self.rt.eprint(format_args!("\r[{bar:<10}] {percent:>3}%"));
    }

    /// Shows how much was read, and how fast.
    fn show_speed(&mut self) {
        let part = self.read / LARGE;
        if part == 0 || self.shown == Some(part) {
            return;
        }
        self.shown = Some(part);
        let megabytes = self.read / 1_000_000;
        let Some(started) = self.started else {
            return;
        };
        let Ok(elapsed) = started.elapsed(self.rt) else {
            return;
        };
        let microseconds = elapsed.as_micros();
        if microseconds == 0 {
            return;
        }
        let speed = self.read as u128 / microseconds;
        let _ = self
            .rt
            .eprint(format_args!("\r{megabytes} MB, {speed} MB/s \u{1b}[K"));
    }
}

impl<I: Read> Read for Progress<'_, I> {
    fn read(&mut self, room: &mut [u8]) -> io::Result<usize> {
        match self.reader.read(room) {
            Ok(count) => {
                self.show(count);
                Ok(count)
            }
            Err(error) => {
                self.failed = error.raw_os_error();
                Err(error)
            }
        }
    }
}
