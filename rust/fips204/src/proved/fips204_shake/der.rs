// Made by tools/erase of crates/fips204_shake/src/der.rt. Change that, not this.
//! Keys of ML-DSA in DER (RFC 9881), read where they lie and written into the arrays of the caller. Of ML-DSA only the names
//! of the parameter sets and their lengths are used.

mod elements;
mod fault;
mod keys;

pub use fault::DerFault;
pub use crate::proved::fips204::SetName;
pub use keys::{PrivateKey, SEED_LENGTH, read_private, read_public, write_private, write_public};
