// Made by tools/erase of crates/fips204_base/src/lib.rt. Change that, not this.
//! The lower half of ML-DSA (FIPS 204): XOFs, arithmetic, conversions and encodings, over
//! polynomials of 256 coefficients modulo `q`.
//!
//! The crate `fips204` re-exports what users need; depend on that one. What is marked internal serves the
//! crate `fips204` alone, and may change with it.

pub mod conversion;
pub mod encodings;
pub mod fault;
pub mod hashing;
pub mod helpers;
pub mod high_low;
pub mod lanes;
#[doc(hidden)]
pub mod maps;
pub mod ntt;
#[doc(hidden)]
pub mod product;
pub mod types;
pub mod xof;

pub use fault::Fault;

/// The modulus `q = 2^23 - 2^13 + 1` (FIPS 204, Table 1).
pub const Q: i32 = 8380417;

/// A 512th root of unity modulo `q` (FIPS 204, Table 1).
pub const ZETA: i32 = 1753;

/// How many low bits `power2round` drops from t (FIPS 204, Table 1).
pub const D: u32 = 13;
