// Made by tools/erase of crates/fips204_shake/src/der/keys.rt. Change that, not this.
//! Keys in DER (RFC 9881).

use crate::proved::fips204_shake::der::elements::{
    BIT_STRING, CONTEXT_0, INTEGER, OCTET_STRING, SEQUENCE, element, front, put, whole,
};
use crate::proved::fips204_shake::der::fault::DerFault;
use crate::proved::fips204::SetName;

/// How many bytes a seed has.
pub const SEED_LENGTH: usize = 32;

/// What stands before the object identifier in an AlgorithmIdentifier.
const IDENTIFIED: [u8; 2] = [SEQUENCE, 11];

/// The version 0 of a OneAsymmetricKey.
const VERSION: [u8; 3] = [INTEGER, 1, 0];

/// A private key as its file has it.
#[derive(Debug, Clone, Copy)]
pub enum PrivateKey<'a> {
    /// The seed that the key is generated from.
    Seed(&'a [u8]),
    /// The expanded key.
    Expanded(&'a [u8]),
    /// Both.
    Both { seed: &'a [u8], expanded: &'a [u8] },
}

/// The object identifier of an algorithm in DER.
fn identifier(algorithm: SetName) -> [u8; 11] {
    let last = match algorithm {
        SetName::MlDsa44 => 17,
        SetName::MlDsa65 => 18,
        SetName::MlDsa87 => 19,
    };
    [6, 9, 96, 134, 72, 1, 101, 3, 4, 3, last]
}

/// The algorithm of an AlgorithmIdentifier with these contents.
fn algorithm_with(contents: &[u8]) -> Result<SetName, DerFault> {
    if contents == identifier(SetName::MlDsa44).as_slice() {
        return Ok(SetName::MlDsa44);
    }
    if contents == identifier(SetName::MlDsa65).as_slice() {
        return Ok(SetName::MlDsa65);
    }
    if contents == identifier(SetName::MlDsa87).as_slice() {
        return Ok(SetName::MlDsa87);
    }
    Err(DerFault::OtherAlgorithm)
}

/// The algorithm that the bytes begin with, and what follows it.
fn algorithm(bytes: &[u8]) -> Result<(SetName, &[u8]), DerFault> {
    let (contents, rest) = element(SEQUENCE, bytes)?;
    let algorithm = algorithm_with(contents)?;
    Ok((algorithm, rest))
}

/// The bytes, which are to be so many.
fn sized(wanted: usize, bytes: &[u8]) -> Result<&[u8], DerFault> {
    if bytes.len() != wanted {
        return Err(DerFault::KeyLength);
    }
    Ok(bytes)
}

/// The contents of the element with this tag that the bytes are, which are to be so many.
fn string(tag: u8, size: usize, bytes: &[u8]) -> Result<&[u8], DerFault> {
    sized(size, whole(tag, bytes)?)
}

/// The algorithm and the bytes of a SubjectPublicKeyInfo.
fn public_key_info(der: &[u8]) -> Result<(SetName, &[u8]), DerFault> {
    let info = whole(SEQUENCE, der)?;
    let (algorithm, rest) = algorithm(info)?;
    let [0, bytes @ ..] = whole(BIT_STRING, rest)? else {
        return Err(DerFault::Element);
    };
    Ok((algorithm, sized(algorithm.public_key_len(), bytes)?))
}

/// The public key of a file in DER: a SubjectPublicKeyInfo (RFC 9881, section 4).
///
/// Errors: the first fault from its beginning.
pub fn read_public(der: &[u8]) -> Result<(SetName, &[u8]), DerFault> {
    public_key_info(der)
}

/// The private key of an ML-DSA-PrivateKey, in one of its three forms.
fn choice(algorithm: SetName, bytes: &[u8]) -> Result<PrivateKey<'_>, DerFault> {
    let size = algorithm.private_key_len();
    match bytes {
        [] => Err(DerFault::Short),
        [CONTEXT_0, ..] => Ok(PrivateKey::Seed(string(CONTEXT_0, SEED_LENGTH, bytes)?)),
        [OCTET_STRING, ..] => Ok(PrivateKey::Expanded(string(OCTET_STRING, size, bytes)?)),
        _ => {
            let (first, rest) = element(OCTET_STRING, whole(SEQUENCE, bytes)?)?;
            let seed = sized(SEED_LENGTH, first)?;
            let expanded = string(OCTET_STRING, size, rest)?;
            Ok(PrivateKey::Both { seed, expanded })
        }
    }
}

/// The algorithm and the private key of a OneAsymmetricKey.
fn asymmetric_key(der: &[u8]) -> Result<(SetName, PrivateKey<'_>), DerFault> {
    let info = whole(SEQUENCE, der)?;
    let (version, rest) = element(INTEGER, info)?;
    if version != [0].as_slice() {
        return Err(DerFault::Version);
    }
    let (algorithm, rest) = algorithm(rest)?;
    Ok((algorithm, choice(algorithm, whole(OCTET_STRING, rest)?)?))
}

/// The private key of a file in DER: a OneAsymmetricKey, which PKCS #8 calls PrivateKeyInfo, without attributes (RFC
/// 9881, section 6). Whether a seed gives the expanded key beside it is not asked.
///
/// Errors: the first fault from its beginning.
pub fn read_private(der: &[u8]) -> Result<(SetName, PrivateKey<'_>), DerFault> {
    asymmetric_key(der)
}

/// Writes the file of a public key in DER: a SubjectPublicKeyInfo (RFC 9881, section 4).
pub fn write_public(algorithm: SetName, bytes: &[u8], der: &mut [u8]) {
    let size = bytes.len();
    let info = front(SEQUENCE, size + 18);
    let identifier = identifier(algorithm);
    let bits = front(BIT_STRING, size + 1);
    put(der, &[&info, &IDENTIFIED, &identifier, &bits, &[0], bytes]);
}

/// Writes the file of a private key in DER: a OneAsymmetricKey of version 0 (RFC 9881, section 6).
pub fn write_private(algorithm: SetName, key: PrivateKey<'_>, der: &mut [u8]) {
    let size = algorithm.private_key_len();
    let identifier = identifier(algorithm);
    match key {
        PrivateKey::Seed(seed) => {
            let info = [SEQUENCE, 52];
            let key = [OCTET_STRING, 34, CONTEXT_0, 32];
            put(
                der,
                &[&info, &VERSION, &IDENTIFIED, &identifier, &key, seed],
            );
        }
        PrivateKey::Expanded(expanded) => {
            let info = front(SEQUENCE, size + 24);
            let key = front(OCTET_STRING, size + 4);
            let second = front(OCTET_STRING, size);
            put(
                der,
                &[
                    &info,
                    &VERSION,
                    &IDENTIFIED,
                    &identifier,
                    &key,
                    &second,
                    expanded,
                ],
            );
        }
        PrivateKey::Both { seed, expanded } => {
            let info = front(SEQUENCE, size + 62);
            let key = front(OCTET_STRING, size + 42);
            let both = front(SEQUENCE, size + 38);
            let first = [OCTET_STRING, 32];
            let second = front(OCTET_STRING, size);
            put(
                der,
                &[
                    &info,
                    &VERSION,
                    &IDENTIFIED,
                    &identifier,
                    &key,
                    &both,
                    &first,
                    seed,
                    &second,
                    expanded,
                ],
            );
        }
    }
}
