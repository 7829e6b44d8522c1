//! For the crate `hex`: that of crates.io, with memory that may be refused, and the error for it.

use crate::alloc::{AllocError, Global};
use crate::string::String;
use crate::vec::Vec;

#[derive(Clone, Copy, Debug, PartialEq, Eq)]
pub enum FromHexError {
    OddLength,
    InvalidHexCharacter,
    InvalidStringLength,
    OutOfMemory,
}

crate::is_error!(FromHexError);

impl From<AllocError> for FromHexError {
    fn from(_: AllocError) -> FromHexError {
        FromHexError::OutOfMemory
    }
}

impl From<hex::FromHexError> for FromHexError {
    fn from(error: hex::FromHexError) -> FromHexError {
        match error {
            hex::FromHexError::OddLength => FromHexError::OddLength,
            hex::FromHexError::InvalidHexCharacter { .. } => FromHexError::InvalidHexCharacter,
            hex::FromHexError::InvalidStringLength => FromHexError::InvalidStringLength,
        }
    }
}

/// The bytes in lower case.
pub fn encode<T: AsRef<[u8]>>(alloc: Global, bytes: T) -> Result<String, AllocError> {
    let mut text = String::new(alloc);
    for byte in bytes.as_ref() {
        text.write_fmt(format_args!("{byte:02x}"))?;
    }
    Ok(text)
}

/// The bytes that a text in either case spells.
pub fn decode<T: AsRef<[u8]>>(alloc: Global, text: T) -> Result<Vec<u8>, FromHexError> {
    let text = text.as_ref();
    let mut bytes = Vec::filled(alloc, 0, text.len() / 2)?;
    decode_to_slice(text, &mut bytes)?;
    Ok(bytes)
}

/// The bytes that a text spells, of which there have to be as many as there is room for.
pub fn decode_to_slice<T: AsRef<[u8]>>(text: T, out: &mut [u8]) -> Result<(), FromHexError> {
    Ok(hex::decode_to_slice(text, out)?)
}

#[cfg(test)]
mod tests {
    use super::*;

    #[test]
    fn encodes_and_decodes() {
        assert_eq!(encode(Global, [0, 0x9a, 0xff]).unwrap().as_str(), "009aff");
        assert_eq!(
            decode(Global, "009AfF").unwrap().as_slice(),
            [0, 0x9a, 0xff]
        );
        assert_eq!(decode(Global, "").unwrap().as_slice(), []);
    }

    #[test]
    fn what_is_no_hex_is_an_error() {
        assert_eq!(decode(Global, "000"), Err(FromHexError::OddLength));
        assert_eq!(decode(Global, "0g"), Err(FromHexError::InvalidHexCharacter));
        let short = decode_to_slice("0000", &mut [0]);
        assert_eq!(short, Err(FromHexError::InvalidStringLength));
    }
}
