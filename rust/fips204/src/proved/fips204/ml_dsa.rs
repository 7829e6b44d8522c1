// Made by tools/erase of crates/fips204/src/ml_dsa.rt. Change that, not this.
//! What the parameter sets share (FIPS 204, sections 5 and 6).

mod commitment_hash;
mod decoding;
mod framing;
mod key_generation;
mod matrix_bytes;
mod signing;
mod verification;
mod whole;

pub use decoding::{expand_private, expand_public};
pub use framing::mu;
pub(crate) use framing::{check_input, mu_of};
pub(crate) use key_generation::write_high_part;
pub use key_generation::{key_gen, key_gen_internal, private_to_public_key};
pub(crate) use matrix_bytes::{check_matrix, read_matrix, write_matrix};
pub(crate) use signing::{SigningKey, write_signature};
pub use signing::{MAX_SIGN_ATTEMPTS, sign_internal};
pub use verification::verify_internal;
pub(crate) use verification::{verify_by_bytes, verify_prepared, write_shifted_transforms};
pub(crate) use whole::{is_pair, is_whole};
