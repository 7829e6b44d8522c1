// Made by tools/erase of crates/mldsa_c/src/ml_dsa_87.rt. Change that, not this.
// `tools/sets` made this file from that of 44: edit that one.
//! The exports of ML-DSA-87.

use crate::proved::mldsa_c::numbers::WRONG_LENGTH;
use crate::proved::mldsa_c::pieces;
use crate::proved::mldsa_c::statuses::{accepted, checked_array, status, verdict_status};
use crate::proved::fips204_shake::{Input, MlDsa87, SetName};

/// Makes the key pair of a seed of 32 bytes.
pub fn mldsa87_keygen(seed: &[u8], public_key: &mut [u8], private_key: &mut [u8]) -> u32 {
    let seed = checked_array!(seed, 32);
    status(MlDsa87::keygen(seed, public_key, private_key))
}

/// Signs a message under a context, from 32 random bytes.
pub fn mldsa87_sign(
    private_key: &[u8],
    message: &[u8],
    context: &[u8],
    random: &[u8],
    signature: &mut [u8],
) -> u32 {
    let random = checked_array!(random, 32);
    let input = Input::Message(message, context);
    status(MlDsa87::sign(private_key, random, &input, signature))
}

/// Tells whether a public key accepts the signature of a message under a context.
pub fn mldsa87_verify(
    public_key: &[u8],
    message: &[u8],
    context: &[u8],
    signature: &[u8],
) -> u32 {
    let signed = Input::Message(message, context);
    verdict_status(MlDsa87::verify(public_key, &signed, signature))
}

/// Tells the same as `mldsa87_verify` by 1 for yes and 0 for everything else.
pub fn mldsa87_accepts(
    public_key: &[u8],
    message: &[u8],
    context: &[u8],
    signature: &[u8],
) -> u32 {
    accepted(mldsa87_verify(public_key, message, context, signature))
}

/// Signs a digest under a context, from 32 random bytes; `oid` names its hash function.
pub fn mldsa87_hash_sign(
    private_key: &[u8],
    digest: &[u8],
    context: &[u8],
    oid: &[u8],
    random: &[u8],
    signature: &mut [u8],
) -> u32 {
    let random = checked_array!(random, 32);
    let input = Input::Digest(digest, context, oid);
    status(MlDsa87::sign(private_key, random, &input, signature))
}

/// Tells whether a public key accepts the signature of a digest under a context; `oid` names its hash function.
pub fn mldsa87_hash_verify(
    public_key: &[u8],
    digest: &[u8],
    context: &[u8],
    oid: &[u8],
    signature: &[u8],
) -> u32 {
    let signed = Input::Digest(digest, context, oid);
    verdict_status(MlDsa87::verify(public_key, &signed, signature))
}

/// Signs the hash `mu` of a framed message, which has 64 bytes, from 32 random bytes.
pub fn mldsa87_sign_mu(
    private_key: &[u8],
    mu: &[u8],
    random: &[u8],
    signature: &mut [u8],
) -> u32 {
    let mu = checked_array!(mu, 64);
    let random = checked_array!(random, 32);
    status(MlDsa87::sign(private_key, random, &Input::Mu(mu), signature))
}

/// Tells whether a public key accepts the signature of the hash `mu` of a framed message.
pub fn mldsa87_verify_mu(public_key: &[u8], mu: &[u8], signature: &[u8]) -> u32 {
    let signed = checked_array!(mu, 64);
    verdict_status(MlDsa87::verify(public_key, &Input::Mu(signed), signature))
}

/// Computes the public key of a private one.
pub fn mldsa87_public_key(private_key: &[u8], public_key: &mut [u8]) -> u32 {
    status(MlDsa87::public_key(private_key, public_key))
}

/// Tells whether bytes are a private key.
pub fn mldsa87_check_private_key(private_key: &[u8]) -> u32 {
    status(MlDsa87::check_private_key(private_key))
}

/// Tells whether a private key is consistent.
pub fn mldsa87_is_whole(private_key: &[u8]) -> u32 {
    verdict_status(MlDsa87::is_whole(private_key))
}

/// Tells whether a private key and the public key that belongs to it are a pair.
pub fn mldsa87_is_pair(private_key: &[u8]) -> u32 {
    verdict_status(MlDsa87::is_pair(private_key))
}

/// Begins a message in pieces that a public key is to verify, under a context.
pub fn mldsa87_mu_begin(public_key: &[u8], context: &[u8], state: &mut [u8]) -> u32 {
    pieces::begin(SetName::MlDsa87, public_key, context, state)
}

/// Begins a message in pieces that a private key is to sign, under a context.
pub fn mldsa87_mu_begin_private(
    private_key: &[u8],
    context: &[u8],
    state: &mut [u8],
) -> u32 {
    pieces::begin_private(SetName::MlDsa87, private_key, context, state)
}
