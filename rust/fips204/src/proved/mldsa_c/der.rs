// Made by tools/erase of crates/mldsa_c/src/der.rt. Change that, not this.
//! Keys in DER (RFC 9881): what the exports of each set do.

use crate::proved::mldsa_c::numbers::{DONE, INCONSISTENT, NO_SEED, OTHER_SET, WRONG_LENGTH, status_of_der};
use crate::proved::mldsa_c::statuses::status_of_refusal;
use crate::proved::fips204_shake::bytes::array_of;
use crate::proved::fips204_shake::der::{PrivateKey, read_private, read_public, write_private, write_public};
use crate::proved::fips204_shake::{AnySet, Fault, Refusal, SetName};

/// The lengths of the longest keys.
const PUBLIC_KEY: usize = 2592;

const PRIVATE_KEY: usize = 4896;

/// Writes the private key of a seed; an error is a status.
fn generate(set: SetName, seed: &[u8; 32], private_key: &mut [u8]) -> Result<(), u32> {
    let mut public_key = [0; PUBLIC_KEY];
    let public_key = &mut public_key[..set.public_key_len()];
    match AnySet::keygen(set, seed, public_key, private_key) {
        Ok(()) => Ok(()),
        Err(refusal) => Err(status_of_refusal(refusal)),
    }
}

/// Does nothing if a private key is one of a pair; an error is a status.
fn check_pair(set: SetName, private_key: &[u8]) -> Result<(), u32> {
    match AnySet::is_pair(set, private_key) {
        Ok(true) => Ok(()),
        Ok(false) | Err(Refusal::Library(Fault::KeyRange)) => Err(INCONSISTENT),
        Err(refusal) => Err(status_of_refusal(refusal)),
    }
}

/// Does nothing if a seed generates this private key; an error is a status.
fn check_both(set: SetName, seed: &[u8; 32], private_key: &[u8]) -> Result<(), u32> {
    let mut made = [0; PRIVATE_KEY];
    let made = &mut made[..private_key.len()];
    generate(set, seed, made)?;
    if &*made != private_key {
        return Err(INCONSISTENT);
    }
    Ok(())
}

/// Writes the expanded key of a private key.
fn write_expanded(set: SetName, key: PrivateKey<'_>, private_key: &mut [u8]) -> u32 {
    match key {
        PrivateKey::Seed(seed) => match generate(set, array_of(seed), private_key) {
            Ok(()) => DONE,
            Err(status) => status,
        },
        PrivateKey::Expanded(expanded) => match check_pair(set, expanded) {
            Ok(()) => {
                private_key.copy_from_slice(expanded);
                DONE
            }
            Err(status) => status,
        },
        PrivateKey::Both { seed, expanded } => match check_both(set, array_of(seed), expanded) {
            Ok(()) => {
                private_key.copy_from_slice(expanded);
                DONE
            }
            Err(status) => status,
        },
    }
}

/// Writes the seed of a private key.
fn write_seed(set: SetName, key: PrivateKey<'_>, out: &mut [u8]) -> u32 {
    match key {
        PrivateKey::Seed(seed) => {
            out.copy_from_slice(seed);
            DONE
        }
        PrivateKey::Expanded(_) => NO_SEED,
        PrivateKey::Both { seed, expanded } => match check_both(set, array_of(seed), expanded) {
            Ok(()) => {
                out.copy_from_slice(seed);
                DONE
            }
            Err(status) => status,
        },
    }
}

/// The private key of a parameter set that DER has; an error is a status.
fn private_key_of(set: SetName, der: &[u8]) -> Result<PrivateKey<'_>, u32> {
    match read_private(der) {
        Ok((found, key)) if found == set => Ok(key),
        Ok(_) => Err(OTHER_SET),
        Err(fault) => Err(status_of_der(fault)),
    }
}

/// Reads a public key of a parameter set.
pub(crate) fn public_key_from_der(set: SetName, der: &[u8], public_key: &mut [u8]) -> u32 {
    if public_key.len() != set.public_key_len() {
        return WRONG_LENGTH;
    }
    match read_public(der) {
        Ok((found, bytes)) if found == set => {
            public_key.copy_from_slice(bytes);
            DONE
        }
        Ok(_) => OTHER_SET,
        Err(fault) => status_of_der(fault),
    }
}

/// Reads a private key of a parameter set, and writes its expanded key.
pub(crate) fn private_key_from_der(set: SetName, der: &[u8], private_key: &mut [u8]) -> u32 {
    if private_key.len() != set.private_key_len() {
        return WRONG_LENGTH;
    }
    match private_key_of(set, der) {
        Ok(key) => write_expanded(set, key, private_key),
        Err(status) => status,
    }
}

/// Reads the seed of a private key of a parameter set.
pub(crate) fn seed_from_der(set: SetName, der: &[u8], seed: &mut [u8]) -> u32 {
    if seed.len() != 32 {
        return WRONG_LENGTH;
    }
    match private_key_of(set, der) {
        Ok(key) => write_seed(set, key, seed),
        Err(status) => status,
    }
}

/// Writes a public key.
pub(crate) fn public_key_to_der(set: SetName, public_key: &[u8], der: &mut [u8]) -> u32 {
    let size = set.public_key_len();
    if public_key.len() != size || der.len() != size + 22 {
        return WRONG_LENGTH;
    }
    write_public(set, public_key, der);
    DONE
}

/// Writes a seed as a private key.
pub(crate) fn seed_to_der(set: SetName, seed: &[u8], der: &mut [u8]) -> u32 {
    if seed.len() != 32 || der.len() != 54 {
        return WRONG_LENGTH;
    }
    write_private(set, PrivateKey::Seed(seed), der);
    DONE
}

/// Writes an expanded key as a private key.
pub(crate) fn private_key_to_der(set: SetName, private_key: &[u8], der: &mut [u8]) -> u32 {
    let size = set.private_key_len();
    if private_key.len() != size || der.len() != size + 28 {
        return WRONG_LENGTH;
    }
    match check_pair(set, private_key) {
        Ok(()) => {
            write_private(set, PrivateKey::Expanded(private_key), der);
            DONE
        }
        Err(status) => status,
    }
}

/// Writes a seed and the expanded key that it generates as a private key.
pub(crate) fn both_to_der(set: SetName, seed: &[u8], der: &mut [u8]) -> u32 {
    let size = set.private_key_len();
    if seed.len() != 32 || der.len() != size + 66 {
        return WRONG_LENGTH;
    }
    let mut made = [0; PRIVATE_KEY];
    let expanded = &mut made[..size];
    match generate(set, array_of(seed), expanded) {
        Ok(()) => {
            write_private(set, PrivateKey::Both { seed, expanded }, der);
            DONE
        }
        Err(status) => status,
    }
}
