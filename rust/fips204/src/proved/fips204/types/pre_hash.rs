// Made by tools/erase of crates/fips204/src/types/pre_hash.rt. Change that, not this.
//! Hash functions whose digests can be signed (FIPS 204, section 5.4).
//!
//! Each is named by its object identifier in DER: tag 06, the number of the bytes that follow, and these
//! bytes. All twelve identifiers are below 2.16.840.1.101.3.4.2.
//!
//! A digest has to be as strong as the parameter set: at least 32 bytes at ML-DSA-44, 48 at -65 and 64 at -87. Shorter
//! ones are not rejected.

use crate::proved::fips204_base::Fault;

/// The largest number of bytes of a digest that can be signed.
pub const MAX_PREHASH_LEN: usize = 1024;

/// SHA-224, with a digest of 28 bytes.
pub const SHA2_224: [u8; 11] = *b"\x06\x09\x60\x86\x48\x01\x65\x03\x04\x02\x04";

/// SHA-256, with a digest of 32 bytes.
pub const SHA2_256: [u8; 11] = *b"\x06\x09\x60\x86\x48\x01\x65\x03\x04\x02\x01";

/// SHA-384, with a digest of 48 bytes.
pub const SHA2_384: [u8; 11] = *b"\x06\x09\x60\x86\x48\x01\x65\x03\x04\x02\x02";

/// SHA-512, with a digest of 64 bytes.
pub const SHA2_512: [u8; 11] = *b"\x06\x09\x60\x86\x48\x01\x65\x03\x04\x02\x03";

/// SHA-512/224, with a digest of 28 bytes.
pub const SHA2_512_224: [u8; 11] = *b"\x06\x09\x60\x86\x48\x01\x65\x03\x04\x02\x05";

/// SHA-512/256, with a digest of 32 bytes.
pub const SHA2_512_256: [u8; 11] = *b"\x06\x09\x60\x86\x48\x01\x65\x03\x04\x02\x06";

/// SHA3-224, with a digest of 28 bytes.
pub const SHA3_224: [u8; 11] = *b"\x06\x09\x60\x86\x48\x01\x65\x03\x04\x02\x07";

/// SHA3-256, with a digest of 32 bytes.
pub const SHA3_256: [u8; 11] = *b"\x06\x09\x60\x86\x48\x01\x65\x03\x04\x02\x08";

/// SHA3-384, with a digest of 48 bytes.
pub const SHA3_384: [u8; 11] = *b"\x06\x09\x60\x86\x48\x01\x65\x03\x04\x02\x09";

/// SHA3-512, with a digest of 64 bytes.
pub const SHA3_512: [u8; 11] = *b"\x06\x09\x60\x86\x48\x01\x65\x03\x04\x02\x0A";

/// SHAKE128, with a digest of 32 bytes.
pub const SHAKE_128: [u8; 11] = *b"\x06\x09\x60\x86\x48\x01\x65\x03\x04\x02\x0B";

/// SHAKE256, with a digest of 64 bytes.
pub const SHAKE_256: [u8; 11] = *b"\x06\x09\x60\x86\x48\x01\x65\x03\x04\x02\x0C";

/// The twelve hash functions by the last byte of the identifier, with the lengths of their digests in bytes.
const DIGEST_LENS: [([u8; 11], usize); 12] = [
    (SHA2_256, 32),
    (SHA2_384, 48),
    (SHA2_512, 64),
    (SHA2_224, 28),
    (SHA2_512_224, 28),
    (SHA2_512_256, 32),
    (SHA3_224, 28),
    (SHA3_256, 32),
    (SHA3_384, 48),
    (SHA3_512, 64),
    (SHAKE_128, 32),
    (SHAKE_256, 64),
];

/// The number of bytes of a digest of the hash function that this object identifier names, or `None` if it is
/// none of the twelve.
pub fn digest_len(oid: &[u8]) -> Option<usize> {
    for (known, length) in &DIGEST_LENS {
        if oid == known.as_slice() {
            return Some(*length);
        }
    }
    None
}

/// Whether these bytes are a valid DER object identifier: at least three, the first the tag 06, the second
/// below 128 and the number of the bytes after it.
fn has_der_form(oid: &[u8]) -> bool {
    oid.len() >= 3 && oid[0] == 0x06 && oid[1] < 0x80 && oid[1] as usize + 2 == oid.len()
}

/// Checks a digest and the object identifier of its hash function before they are signed or verified.
///
/// Errors, in this order: `Fault::OidEmpty` if the identifier is empty; `Fault::OidNotDer` if it is not a valid DER
/// object identifier; `Fault::DigestTooLong` if the digest has more than 1024 bytes; `Fault::DigestLength` if the
/// identifier is one of the twelve and the digest does not have the output length of its hash function.
pub fn check_pre_hash(hash: &[u8], oid: &[u8]) -> Result<(), Fault> {
    if oid.is_empty() {
        return Err(Fault::OidEmpty);
    }
    if !has_der_form(oid) {
        return Err(Fault::OidNotDer);
    }
    if hash.len() > MAX_PREHASH_LEN {
        return Err(Fault::DigestTooLong);
    }
    match digest_len(oid) {
        Some(wanted) if hash.len() != wanted => Err(Fault::DigestLength),
        _ => Ok(()),
    }
}
