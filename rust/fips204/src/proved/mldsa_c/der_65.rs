// Made by tools/erase of crates/mldsa_c/src/der_65.rt. Change that, not this.
// `tools/sets` made this file from that of 44: edit that one.
//! The exports of ML-DSA-65 for keys in DER.

use crate::proved::mldsa_c::der;
use crate::proved::fips204_shake::SetName;

/// Writes a public key in DER.
pub fn mldsa65_public_key_to_der(public_key: &[u8], public_key_der: &mut [u8]) -> u32 {
    der::public_key_to_der(SetName::MlDsa65, public_key, public_key_der)
}

/// Reads a public key in DER.
pub fn mldsa65_public_key_from_der(public_key_der: &[u8], public_key: &mut [u8]) -> u32 {
    der::public_key_from_der(SetName::MlDsa65, public_key_der, public_key)
}

/// Writes a private key in DER, by its seed.
pub fn mldsa65_seed_to_der(seed: &[u8], seed_der: &mut [u8]) -> u32 {
    der::seed_to_der(SetName::MlDsa65, seed, seed_der)
}

/// Writes a private key in DER, by its expanded key.
pub fn mldsa65_private_key_to_der(private_key: &[u8], private_key_der: &mut [u8]) -> u32 {
    der::private_key_to_der(SetName::MlDsa65, private_key, private_key_der)
}

/// Writes a private key in DER, by its seed and its expanded key.
pub fn mldsa65_both_to_der(seed: &[u8], both_der: &mut [u8]) -> u32 {
    der::both_to_der(SetName::MlDsa65, seed, both_der)
}

/// Reads a private key in DER.
pub fn mldsa65_private_key_from_der(
    private_key_der: &[u8],
    private_key: &mut [u8],
) -> u32 {
    der::private_key_from_der(SetName::MlDsa65, private_key_der, private_key)
}

/// Reads the seed of a private key in DER.
pub fn mldsa65_seed_from_der(seed_der: &[u8], seed: &mut [u8]) -> u32 {
    der::seed_from_der(SetName::MlDsa65, seed_der, seed)
}
