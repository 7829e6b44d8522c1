// Made by tools/erase of crates/mlsign_engine/src/source.rt. Change that, not this.
//! What gives a message.

use crate::standing::*;

use rattle_std::io::Read;

/// What gives a message piece by piece: a reader does, as a `Reader`.
///
/// Its `gives` lets a contract name the calls that were made, and so tell a message that could not be read.
pub trait Source: Sized {
    /// Puts the next bytes at the start of the room, and returns how many: none at the end, or if there is no room.
    /// Returns `None` if it fails.
    fn give(&mut self, room: &mut [u8]) -> Option<usize>;
}

/// A reader that notes that a call failed: what a reader itself states of such a call, it may state of another too.
pub struct Reader<R> {
    /// The reader.
    pub reader: R,
    /// Whether a call failed.
    pub failed: bool,
}

impl<R> Reader<R> {
    /// A reader of which no call failed.
    pub fn new(reader: R) -> Reader<R> {
        Reader {
            reader,
            failed: false,
        }
    }
}

impl<R: Read> Source for Reader<R> {
    fn give(&mut self, room: &mut [u8]) -> Option<usize> {
        match self.reader.read(room) {
            Ok(count) => Some(count),
            Err(_) => {
                self.failed = true;
                None
            }
        }
    }
}
