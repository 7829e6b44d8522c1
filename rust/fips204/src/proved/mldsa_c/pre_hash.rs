// Made by tools/erase of crates/mldsa_c/src/pre_hash.rt. Change that, not this.
//! Exports that all sets share.

use crate::proved::mldsa_c::numbers::{DONE, status_of};
use crate::proved::fips204::check_pre_hash;

/// Tells whether a digest and the object identifier of its hash function can be signed.
pub fn mldsa_check_pre_hash(digest: &[u8], oid: &[u8]) -> u32 {
    match check_pre_hash(digest, oid) {
        Ok(()) => DONE,
        Err(fault) => status_of(fault),
    }
}

/// The version of the library: 65536 times the first number, 256 times the second, and the third.
pub fn mldsa_version() -> u32 {
    512
}
