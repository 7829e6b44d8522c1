// Made by tools/erase of crates/mlsign_engine/src/lax.rt. Change that, not this.
//! The text of a key as others write it: PEM in the lax form of RFC 7468, with text around it.

use crate::standing::*;

use crate::proved::mlsign_engine::pem::{Kind, first_dash, put_wrapped};
use rattle_std::alloc::{AllocError, Global};

/// A text from the first place on where it has these bytes; nothing if it has them nowhere.
fn from_first<'a>(front: &[u8], text: &'a [u8]) -> &'a [u8] {
    let mut rest = text;
    while let [_, after @ ..] = rest {
        if rest.starts_with(front) {
            return rest;
        }
        rest = after;
    }
    rest
}

/// A text from the first place on where a key's may begin.
fn begun(text: &[u8]) -> &[u8] {
    from_first(b"-----BEGIN ", text)
}

/// Adds the end of a text in the strict form, which begins with the first dash behind its first line.
fn put_closing(out: &mut Vec<u8>, kind: Kind, text: &[u8]) -> Result<(), AllocError> {
    let last = kind.end_line();
    if !text.starts_with(last) {
        return out.extend_from_slice(text);
    }
    out.extend_from_slice(last)?;
    out.extend_from_slice(b"\n")?;
    out.extend_from_slice(begun(&text[last.len()..]))
}

/// The strict form of a text that begins with the first line of this kind.
fn rewrapped(alloc: Global, kind: Kind, text: &[u8]) -> Result<Vec<u8>, AllocError> {
    let first = kind.begin_line();
    let rest = &text[first.len()..];
    let (body, closing) = rest.split_at(first_dash(rest));
    let symbols: Vec<u8> = body
        .iter()
        .copied()
        .filter(|byte| !byte.is_ascii_whitespace())
        .collect_in(alloc)?;
    let mut out = Vec::new(alloc);
    out.extend_from_slice(first)?;
    out.extend_from_slice(b"\n")?;
    put_wrapped(&mut out, b"\n", symbols.as_slice())?;
    put_closing(&mut out, kind, closing)?;
    Ok(out)
}

/// The strict form of a text of this kind.
fn made_strict(alloc: Global, kind: Kind, text: &[u8]) -> Result<Vec<u8>, AllocError> {
    let begun = begun(text);
    if begun.starts_with(kind.begin_line()) {
        return rewrapped(alloc, kind, begun);
    }
    if begun.is_empty() {
        return Vec::from_slice(alloc, text);
    }
    Vec::from_slice(alloc, begun)
}

/// The strict form of a text of this kind: what stands before its first line and behind its last one is left out, as is white space
/// between them, and what remains of the lines between gets 64 characters a line, and LF. Behind the last line nothing is left out from
/// the beginning of another text on. A text without a first line of this kind has its fault in the strict form too.
pub fn strict_form(alloc: Global, kind: Kind, text: &[u8]) -> Result<Vec<u8>, AllocError> {
    made_strict(alloc, kind, text)
}

/// A text from the place on where a key's may begin, or all of it.
pub fn from_beginning(text: &[u8]) -> &[u8] {
    let begun = begun(text);
    if begun.is_empty() {
        return text;
    }
    begun
}

/// The kind that the first line of a text says, or else `Public`.
pub fn kind_of_text(text: &[u8]) -> Kind {
    if begun(text).starts_with(Kind::Private.begin_line()) {
        Kind::Private
    } else {
        Kind::Public
    }
}
