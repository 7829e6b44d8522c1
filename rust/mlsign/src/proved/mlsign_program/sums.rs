// Made by tools/erase of crates/mlsign_program/src/sums.rt. Change that, not this.
//! Lists of sums, as `sha256sum` writes them.

use crate::standing::*;

use crate::proved::mlsign_program::commands::open;
use crate::proved::mlsign_program::files::STANDARD;
use crate::proved::mlsign_program::text::{about, printable};
use crate::proved::mlsign_program::verify::{
    Ends, TrustedKey, accepts_list, read_signature, say_invalid, say_valid, tell_keys,
};
use anyhow::{Context, Error};
use clap::ArgMatches;
use sha2::{Digest, Sha256};
use rattle_std::alloc::Global;
use rattle_std::fs::{File, OpenFile};
use rattle_std::io::{self, ErrorKind, Read};

/// The most bytes of a list.
const LONGEST: usize = 16_777_216;

/// How many bytes of a file are read at once.
const PIECE: usize = 65536;

/// A line of a list.
struct Sum<'a> {
    /// The SHA-256 of the file, as 64 hexadecimal digits in lower case.
    digits: &'a str,
    /// The file's name.
    name: String,
}

/// Whether one of the keys accepts the signature of a list, and these files have their sums in it, or all files of the
/// list if the call names none. The list is read once, so what was signed is what is looked at. No file is looked at if
/// the list's signature is invalid.
pub(crate) fn verify_sums(
    rt: &HostRuntime,
    words: &ArgMatches<'_>,
    keys: &mut [TrustedKey<'_>],
    path: &str,
    files: &[&str],
) -> Result<bool, Error> {
    let signature = read_signature(rt, words, path)?;
    let signature = signature.as_slice();
    let list = read_list(rt, words, path)?;
    let list = list.as_slice();
    for key in keys.iter_mut() {
        if accepts_list(words, key, signature, list)? {
            key.accept();
            say_valid(rt, words, key, path, true)?;
            tell_keys(rt, words, keys)?;
            let sums = read_sums(rt.alloc(), path, list)?;
            let sums = sums.as_slice();
            if files.is_empty() {
                return check_all(rt, words, path, sums);
            }
            return check_named(rt, words, sums, files);
        }
    }
    say_invalid(rt, keys, path, true, signature.len())?;
    Ok(false)
}

/// The bytes of a list.
fn read_list(rt: &HostRuntime, words: &ArgMatches<'_>, path: &str) -> Result<Vec<u8>, Error> {
    let mut bytes = Vec::new(rt.alloc());
    let mut input = open(rt, words, path)?.take(LONGEST as u64 + 1);
    input.read_to_end(&mut bytes).context(path)?;
    if bytes.len() > LONGEST {
        return Err(about(path, "it is too long for a list"));
    }
    Ok(bytes)
}

/// Whether each file of a list has its sum. Each has a line.
fn check_all(
    rt: &HostRuntime,
    words: &ArgMatches<'_>,
    path: &str,
    sums: &[Sum<'_>],
) -> Result<bool, Error> {
    let mut ends = Ends::new(sums.len());
    let mut found = 0usize;
    for sum in sums {
        let end = check_file(rt, sum);
        if words.get_flag("ignore-missing") && is_missing(&end) {
            continue;
        }
        found = found.saturating_add(1);
        let end = tell(rt, words, sum, end);
        ends.count(rt, end)?;
    }
    if found == 0 {
        return Err(about(path, "no file of the list is there"));
    }
    ends.worst()
}

/// Whether each of these files is in the list, and has its sum. Each has a line.
fn check_named(
    rt: &HostRuntime,
    words: &ArgMatches<'_>,
    sums: &[Sum<'_>],
    files: &[&str],
) -> Result<bool, Error> {
    let mut ends = Ends::new(files.len());
    for file in files {
        let end = check_listed(rt, words, sums, file);
        ends.count(rt, end)?;
    }
    ends.worst()
}

/// Whether a list has this name, and the file each sum of it.
fn check_listed(
    rt: &HostRuntime,
    words: &ArgMatches<'_>,
    sums: &[Sum<'_>],
    file: &str,
) -> Result<bool, Error> {
    let mut is_listed = false;
    for sum in sums {
        if sum.name.as_str() != file {
            continue;
        }
        is_listed = true;
        let end = check_file(rt, sum);
        if !tell(rt, words, sum, end)? {
            return Ok(false);
        }
    }
    if !is_listed {
        let name = printable(rt.alloc(), file).map_err(io::Error::from)?;
        let _ = rt.eprintln(format_args!("mlsign: {name}: it is not in the list"));
    }
    Ok(is_listed)
}

/// The sums of a list.
fn read_sums<'a>(alloc: Global, path: &str, list: &'a [u8]) -> Result<Vec<Sum<'a>>, Error> {
    let Ok(text) = str::from_utf8(list) else {
        return Err(about(path, "the list is not UTF-8"));
    };
    let Some(sums) = sums_of(alloc, text)? else {
        return Err(about(path, "it is no list of `sha256sum`"));
    };
    for sum in &sums {
        if sum.name.as_str() == STANDARD {
            return Err(about(path, "it has the sum of standard input, which is no file"));
        }
    }
    Ok(sums)
}

/// The sums of a text, if it is the lines that `sha256sum` writes for these, each with LF at its end.
fn sums_of<'a>(alloc: Global, text: &'a str) -> io::Result<Option<Vec<Sum<'a>>>> {
    let mut sums = Vec::new(alloc);
    let mut rest = text;
    while let Some((line, after)) = rest.split_once('\n') {
        let Some(sum) = sum_of(alloc, line)? else {
            return Ok(None);
        };
        sums.push(sum)?;
        rest = after;
    }
    if !rest.is_empty() || sums.is_empty() {
        return Ok(None);
    }
    Ok(Some(sums))
}

/// The sum of a line, if `sha256sum` writes such a line: a backslash if the name is escaped, 64 digits, a blank, a blank
/// or a star, and the file's name.
fn sum_of<'a>(alloc: Global, line: &'a str) -> io::Result<Option<Sum<'a>>> {
    let (escaped, rest) = behind_backslash(line);
    let Some((digits, rest)) = rest.split_once(' ') else {
        return Ok(None);
    };
    let Some(written) = rest.strip_prefix(' ').or(rest.strip_prefix('*')) else {
        return Ok(None);
    };
    let are_digits = digits
        .bytes()
        .all(|digit| matches!(digit, b'0'..=b'9' | b'a'..=b'f'));
    if digits.len() != 64 || !are_digits {
        return Ok(None);
    }
    match plain_name(alloc, escaped, written)? {
        Some(name) => Ok(Some(Sum { digits, name })),
        None => Ok(None),
    }
}

/// Whether a line begins with a backslash, and what stands behind it.
fn behind_backslash(line: &str) -> (bool, &str) {
    match line.strip_prefix('\\') {
        Some(rest) => (true, rest),
        None => (false, line),
    }
}

/// The name that `sha256sum` writes so, if it writes any so. It is escaped if and only if the name has a backslash, LF or
/// CR.
fn plain_name(
    alloc: Global,
    escaped: bool,
    written: &str,
) -> Result<Option<String>, rattle_std::alloc::AllocError> {
    let mut name = String::new(alloc);
    let mut is_escape = false;
    let mut has_escape = false;
    for character in written.chars() {
        if !is_escape && character == '\\' {
            is_escape = true;
            has_escape = true;
            continue;
        }
        let Some(plain) = plain_character(is_escape, character) else {
            return Ok(None);
        };
        name.push(plain)?;
        is_escape = false;
    }
    if is_escape || has_escape != escaped || name.is_empty() {
        return Ok(None);
    }
    Ok(Some(name))
}

/// The character of a name that is written so, behind a backslash or not, if any is.
fn plain_character(is_escape: bool, character: char) -> Option<char> {
    if is_escape {
        match character {
            '\\' => Some('\\'),
            'n' => Some('\n'),
            'r' => Some('\r'),
            _ => None,
        }
    } else if matches!(character, '\\' | '\n' | '\r' | '\0') {
        None
    } else {
        Some(character)
    }
}

/// Whether a file has its sum.
fn check_file(rt: &HostRuntime, sum: &Sum<'_>) -> io::Result<bool> {
    let mut file = File::open(sum.name.as_str())?;
    has_sum(rt.alloc(), &mut file, sum.digits)
}

/// Whether these digits are the SHA-256 of all that a reader gives.
fn has_sum<R: Read>(alloc: Global, reader: &mut R, digits: &str) -> io::Result<bool> {
    let digest = digest_of(reader)?;
    Ok(hex::encode(alloc, &digest)?.as_str() == digits)
}

/// The SHA-256 of all that a reader gives.
fn digest_of<R: Read>(reader: &mut R) -> io::Result<[u8; 32]> {
    let mut hasher = Sha256::new();
    let mut piece = [0; PIECE];
    for _count in 0..u64::MAX {
        let count = reader.read(&mut piece)?;
        if count == 0 {
            return Ok(hasher.finalize());
        }
        hasher.update(&piece[..count]);
    }
    Err(io::Error::from(ErrorKind::FileTooLarge))
}

/// Whether a file is not there.
fn is_missing(end: &io::Result<bool>) -> bool {
    match end {
        Err(error) => error.kind() == ErrorKind::NotFound,
        Ok(_) => false,
    }
}

/// Says whether a file has its sum.
fn tell(
    rt: &HostRuntime,
    words: &ArgMatches<'_>,
    sum: &Sum<'_>,
    end: io::Result<bool>,
) -> Result<bool, Error> {
    let has = end.context(sum.name.as_str())?;
    let name = printable(rt.alloc(), sum.name.as_str()).map_err(io::Error::from)?;
    if !has {
        let _ = rt.eprintln(format_args!("mlsign: {name}: it is not the file of the list"));
    } else if !words.get_flag("quiet") {
        try_println!(rt; "{name}: OK").context("standard output")?;
    }
    Ok(has)
}
