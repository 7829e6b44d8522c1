// Made by tools/erase of crates/mldsa_c/src/prepared_44.rt. Change that, not this.
//! The exports of ML-DSA-44 with prepared keys.

use crate::proved::mldsa_c::numbers::WRONG_LENGTH;
use crate::proved::mldsa_c::statuses::{checked_array, status, verdict_status};
use crate::proved::fips204_shake::{Input, MlDsa44};

/// Prepares a public key for many verifications.
pub fn mldsa44_prepare_public_key(
    public_key: &[u8],
    prepared_public_key: &mut [u8],
) -> u32 {
    status(MlDsa44::prepare_public_key(public_key, prepared_public_key))
}

/// Tells whether a prepared public key accepts the signature of a message under a context.
pub fn mldsa44_verify_prepared(
    prepared_public_key: &[u8],
    message: &[u8],
    context: &[u8],
    signature: &[u8],
) -> u32 {
    let signed = Input::Message(message, context);
    verdict_status(MlDsa44::verify_prepared(prepared_public_key, &signed, signature))
}

/// Tells whether a prepared public key accepts the signature of a digest under a context; `oid` names its hash function.
pub fn mldsa44_hash_verify_prepared(
    prepared_public_key: &[u8],
    digest: &[u8],
    context: &[u8],
    oid: &[u8],
    signature: &[u8],
) -> u32 {
    let signed = Input::Digest(digest, context, oid);
    verdict_status(MlDsa44::verify_prepared(prepared_public_key, &signed, signature))
}

/// Tells whether a prepared public key accepts the signature of the hash `mu` of a framed message.
pub fn mldsa44_verify_mu_prepared(
    prepared_public_key: &[u8],
    mu: &[u8],
    signature: &[u8],
) -> u32 {
    let signed = checked_array!(mu, 64);
    verdict_status(MlDsa44::verify_prepared(prepared_public_key, &Input::Mu(signed), signature))
}

/// Prepares a private key for many signatures.
pub fn mldsa44_prepare_private_key(
    private_key: &[u8],
    prepared_private_key: &mut [u8],
) -> u32 {
    status(MlDsa44::prepare_private_key(private_key, prepared_private_key))
}

/// Signs a message under a context with a prepared private key, from 32 random bytes.
pub fn mldsa44_sign_prepared(
    prepared_private_key: &[u8],
    message: &[u8],
    context: &[u8],
    random: &[u8],
    signature: &mut [u8],
) -> u32 {
    let random = checked_array!(random, 32);
    let input = Input::Message(message, context);
    status(MlDsa44::sign_prepared(prepared_private_key, random, &input, signature))
}

/// Signs a digest under a context with a prepared private key, from 32 random bytes; `oid` names its hash function.
pub fn mldsa44_hash_sign_prepared(
    prepared_private_key: &[u8],
    digest: &[u8],
    context: &[u8],
    oid: &[u8],
    random: &[u8],
    signature: &mut [u8],
) -> u32 {
    let random = checked_array!(random, 32);
    let input = Input::Digest(digest, context, oid);
    status(MlDsa44::sign_prepared(prepared_private_key, random, &input, signature))
}

/// Signs the hash `mu` of a framed message, which has 64 bytes, with a prepared private key, from 32 random bytes.
pub fn mldsa44_sign_mu_prepared(
    prepared_private_key: &[u8],
    mu: &[u8],
    random: &[u8],
    signature: &mut [u8],
) -> u32 {
    let mu = checked_array!(mu, 64);
    let random = checked_array!(random, 32);
    status(MlDsa44::sign_prepared(prepared_private_key, random, &Input::Mu(mu), signature))
}
