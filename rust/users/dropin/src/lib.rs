//! Calls of the crate fips204 0.5.0 that need no feature but a parameter set.
#![no_std]

use fips204::ml_dsa_44::{PrivateKey, PublicKey, SIG_LEN, try_keygen_with_rng};
use fips204::traits::Signer;
use fips204::{CryptoRng, RngCore};

/// A pair, and a signature of it.
///
/// # Errors
/// The generator failed.
pub fn made(
    rng: &mut (impl RngCore + CryptoRng),
) -> Result<(PublicKey, PrivateKey, [u8; SIG_LEN]), &'static str> {
    let (public, private) = try_keygen_with_rng(rng)?;
    let signature = private.try_sign_with_rng(rng, b"a message", b"a context")?;
    Ok((public, private, signature))
}
