//! For the crate `base64`: the crate `data-encoding`, of which each Debian has version 2, with memory that may be refused and
//! the error for it.

use crate::alloc::{AllocError, Global};
use crate::string::String;
use crate::vec::Vec;
use data_encoding::{BASE64, BASE64_NOPAD, Encoding};

#[derive(Clone, Copy, Debug, PartialEq, Eq)]
pub enum DecodeAllocError {
    OutOfMemory,
    DecodeError(()),
}

impl From<AllocError> for DecodeAllocError {
    fn from(_: AllocError) -> DecodeAllocError {
        DecodeAllocError::OutOfMemory
    }
}

/// Base64, with padding or without.
pub struct Standard {
    padded: bool,
}

pub mod engine {
    pub mod general_purpose {
        use crate::base64::Standard;

        pub const STANDARD: Standard = Standard { padded: true };
        pub const STANDARD_NO_PAD: Standard = Standard { padded: false };
    }
}

impl Standard {
    fn encoding(&self) -> Encoding {
        if self.padded { BASE64 } else { BASE64_NOPAD }
    }

    pub fn encode(&self, alloc: Global, bytes: &[u8]) -> Result<String, AllocError> {
        let encoding = self.encoding();
        let mut room = Vec::filled(alloc, 0, encoding.encode_len(bytes.len()))?;
        encoding.encode_mut(bytes, &mut room);
        String::from_utf8_lossy(alloc, &room)
    }

    /// The bytes of a text, which has to be as `encode` gives it. (The crate reads several padded texts in a row as one.)
    pub fn decode(&self, alloc: Global, text: &[u8]) -> Result<Vec<u8>, DecodeAllocError> {
        const WRONG: DecodeAllocError = DecodeAllocError::DecodeError(());
        let encoding = self.encoding();
        let size = encoding.decode_len(text.len()).map_err(|_| WRONG)?;
        let mut room = Vec::filled(alloc, 0, size)?;
        let length = encoding.decode_mut(text, &mut room).map_err(|_| WRONG)?;
        if text.iter().rev().skip(2).any(|symbol| *symbol == b'=') {
            return Err(WRONG);
        }
        Ok(Vec::from_slice(alloc, &room[..length])?)
    }

    /// The same into a place, and how many bytes they are.
    pub fn decode_slice(&self, text: &[u8], out: &mut [u8]) -> Result<usize, DecodeAllocError> {
        let bytes = self.decode(Global, text)?;
        let room = out.get_mut(..bytes.len());
        room.ok_or(DecodeAllocError::DecodeError(()))?
            .copy_from_slice(&bytes);
        Ok(bytes.len())
    }
}

#[cfg(test)]
mod tests {
    use super::engine::general_purpose::{STANDARD, STANDARD_NO_PAD};
    use super::*;

    /// The examples of RFC 4648, section 10.
    const EXAMPLES: [(&str, &str); 7] = [
        ("", ""),
        ("f", "Zg=="),
        ("fo", "Zm8="),
        ("foo", "Zm9v"),
        ("foob", "Zm9vYg=="),
        ("fooba", "Zm9vYmE="),
        ("foobar", "Zm9vYmFy"),
    ];

    #[test]
    fn encodes_and_decodes() {
        for (plain, padded) in EXAMPLES {
            let (bare, bytes) = (padded.trim_end_matches('='), plain.as_bytes());
            for (form, text) in [(STANDARD, padded), (STANDARD_NO_PAD, bare)] {
                assert_eq!(form.encode(Global, bytes).unwrap().as_str(), text);
                let decoded = form.decode(Global, text.as_bytes());
                assert_eq!(decoded.unwrap().as_slice(), bytes);
                let mut room = [0; 6];
                let length = form.decode_slice(text.as_bytes(), &mut room).unwrap();
                assert_eq!(room[..length], *bytes);
            }
        }
    }

    #[test]
    fn a_place_may_be_too_small() {
        let found = STANDARD.decode_slice(b"Zm9vYg==", &mut [0; 3]);
        assert_eq!(found, Err(DecodeAllocError::DecodeError(())));
    }

    #[test]
    fn no_other_form_is_taken() {
        for text in [
            "Zg", "Zg=", "Zm8", "Zh==", "Zm9=", "Zg==Zg==", "Zm9v\n", "Z", "=", "====", "Z===",
            "Zm=v", "Zm9v====", "Zm9-",
        ] {
            let decoded = STANDARD.decode(Global, text.as_bytes());
            assert_eq!(decoded, Err(DecodeAllocError::DecodeError(())), "{text}");
        }
        for text in [
            "Zg=", "Zg==", "Zm8=", "Zh", "Zm9", "Z", "=", "Zm9vY", "Zm9v=",
        ] {
            let decoded = STANDARD_NO_PAD.decode(Global, text.as_bytes());
            assert_eq!(decoded, Err(DecodeAllocError::DecodeError(())), "{text}");
        }
    }
}
