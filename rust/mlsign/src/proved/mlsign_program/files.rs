// Made by tools/erase of crates/mlsign_program/src/files.rt. Change that, not this.
//! Files that are read.

use crate::standing::*;

use crate::proved::mlsign_program::text::{about, note};
use anyhow::{Context, Error};
use rattle_std::fs::{self, File, Metadata, OpenFile};
use rattle_std::io::{self, Read};
use std::os::unix::fs::MetadataExt;

/// The most bytes that a key's file has. The longest, of both a seed and an expanded key, has 6880.
const LONGEST: usize = 16384;

/// The bytes of a key's file.
pub(crate) fn read_key(rt: &HostRuntime, path: &str) -> Result<Vec<u8>, Error> {
    let text = read_start(rt, path)?;
    if text.len() > LONGEST {
        return Err(about(path, "it is too long for a key"));
    }
    Ok(text)
}

/// The name of standard input and output.
pub(crate) const STANDARD: &str = "-";

/// Standard input as a file, where the system has such names.
const STANDARD_INPUT: &str = "/dev/stdin";

/// What the system says of a file that is read.
pub(crate) fn metadata(rt: &HostRuntime, path: &str) -> io::Result<Metadata> {
    fs::metadata(if path == STANDARD {
            STANDARD_INPUT
        } else {
            path
        },
    )
}

/// Notes that others can read or write a private key's file that was read, if they can.
pub(crate) fn note_read(rt: &HostRuntime, path: &str) {
    if path == STANDARD {
        note_open(rt, STANDARD_INPUT, "standard input");
    } else {
        note_open(rt, path, path);
    }
}

/// Notes that others can read or write a private key's file, if they can, by this name.
pub(crate) fn note_open(rt: &HostRuntime, path: &str, name: &str) {
    let Ok(found) = fs::metadata(path) else {
        return;
    };
    if !found.is_file() {
        return;
    }
    let mode = found.mode();
    if mode & 0o044 != 0 && mode & 0o022 != 0 {
        note(
            rt,
            name,
            "can be read and written by others: `chmod 600` keeps it private",
        );
    } else if mode & 0o044 != 0 {
        note(
            rt,
            name,
            "can be read by others: `chmod 600` keeps it private",
        );
    } else if mode & 0o022 != 0 {
        note(
            rt,
            name,
            "can be written by others: `chmod 600` keeps it whole",
        );
    }
}

/// The bytes of a file, or of standard input under the name `-`, as far as they can matter: one more than a key or a signature has, if
/// there are more.
pub(crate) fn read_start(rt: &HostRuntime, path: &str) -> Result<Vec<u8>, Error> {
    let mut bytes = Vec::new(rt.alloc());
    let most = LONGEST as u64 + 1;
    if path == STANDARD {
        rt.stdin().take(most).read_to_end(&mut bytes)
    } else {
        File::open(path)
            .context(path)?
            .take(most)
            .read_to_end(&mut bytes)
    }
    .context(path)?;
    Ok(bytes)
}
