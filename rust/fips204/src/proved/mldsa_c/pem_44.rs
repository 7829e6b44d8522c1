// Made by tools/erase of crates/mldsa_c/src/pem_44.rt. Change that, not this.
//! The exports of ML-DSA-44 for keys in PEM.

use crate::proved::mldsa_c::pem;
use crate::proved::fips204_shake::SetName;

/// Reads a public key in PEM.
pub fn mldsa44_public_key_from_pem(public_key_pem: &[u8], public_key: &mut [u8]) -> u32 {
    pem::public_key_from_pem(SetName::MlDsa44, public_key_pem, public_key)
}

/// Reads a private key in PEM.
pub fn mldsa44_private_key_from_pem(
    private_key_pem: &[u8],
    private_key: &mut [u8],
) -> u32 {
    pem::private_key_from_pem(SetName::MlDsa44, private_key_pem, private_key)
}

/// Reads the seed of a private key in PEM.
pub fn mldsa44_seed_from_pem(seed_pem: &[u8], seed: &mut [u8]) -> u32 {
    pem::seed_from_pem(SetName::MlDsa44, seed_pem, seed)
}
