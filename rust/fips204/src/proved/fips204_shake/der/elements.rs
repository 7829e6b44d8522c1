// Made by tools/erase of crates/fips204_shake/src/der/elements.rt. Change that, not this.
//! The elements of DER.

use crate::proved::fips204_shake::der::fault::DerFault;

pub(crate) const INTEGER: u8 = 2;

pub(crate) const BIT_STRING: u8 = 3;

pub(crate) const OCTET_STRING: u8 = 4;

pub(crate) const SEQUENCE: u8 = 48;
/// The tag `[0]` of a string under IMPLICIT tags.
pub(crate) const CONTEXT_0: u8 = 128;

/// The length that the bytes begin with, and what follows it.
fn length(bytes: &[u8]) -> Result<(usize, &[u8]), DerFault> {
    match bytes {
        [] | [129] | [130] | [130, _] => Err(DerFault::Short),
        [size, rest @ ..] if *size < 128 => Ok((*size as usize, rest)),
        [129, size, rest @ ..] if *size >= 128 => Ok((*size as usize, rest)),
        [130, high, low, rest @ ..] if *high > 0 => {
            Ok((256 * *high as usize + *low as usize, rest))
        }
        _ => Err(DerFault::Element),
    }
}

/// The contents of the element with this tag that the bytes begin with, and what follows it.
pub(crate) fn element(tag: u8, bytes: &[u8]) -> Result<(&[u8], &[u8]), DerFault> {
    let [first, rest @ ..] = bytes else {
        return Err(DerFault::Short);
    };
    if *first != tag {
        return Err(DerFault::Element);
    }
    let (size, rest) = length(rest)?;
    if rest.len() < size {
        return Err(DerFault::Short);
    }
    Ok(rest.split_at(size))
}

/// The contents of the element with this tag that the bytes are.
pub(crate) fn whole(tag: u8, bytes: &[u8]) -> Result<&[u8], DerFault> {
    let (contents, rest) = element(tag, bytes)?;
    if !rest.is_empty() {
        return Err(DerFault::Behind);
    }
    Ok(contents)
}

/// What an element with this tag has before its contents, which are so many bytes.
pub(crate) fn front(tag: u8, size: usize) -> [u8; 4] {
    [tag, 130, (size / 256) as u8, (size % 256) as u8]
}

/// Writes parts one behind the other.
pub(crate) fn put(out: &mut [u8], parts: &[&[u8]]) {
    let mut at = 0;
    for part in parts {
        out[at..at + part.len()].copy_from_slice(part);
        at += part.len();
    }
}
