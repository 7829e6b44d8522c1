//! Written for the crate fips204 0.5.0 alone.

use fips204::ml_dsa_65::{PrivateKey, PublicKey, SIG_LEN, try_keygen};
use fips204::traits::Signer;
use rand_core::{CryptoRng, RngCore};
use zeroize::ZeroizeOnDrop;

/// Both traits of a generator, as `rand_core` has them from 0.6.4 on.
pub trait CryptoRngCore: CryptoRng + RngCore {}

impl<R: CryptoRng + RngCore> CryptoRngCore for R {}

/// A key that signs under one context alone.
pub struct Bound(pub PrivateKey, pub &'static [u8]);

impl Signer for Bound {
    type Signature = [u8; SIG_LEN];
    type PublicKey = PublicKey;

    fn try_sign_with_rng(
        &self,
        rng: &mut impl CryptoRngCore,
        message: &[u8],
        ctx: &[u8],
    ) -> Result<[u8; SIG_LEN], &'static str> {
        if ctx != self.1 {
            return Err("another context");
        }
        self.0.try_sign_with_rng(rng, message, ctx)
    }

    fn try_hash_sign_with_rng(
        &self,
        _rng: &mut impl CryptoRngCore,
        _hash: &[u8],
        _ctx: &[u8],
        _hash_oid: &[u8],
    ) -> Result<[u8; SIG_LEN], &'static str> {
        Err("no digests")
    }

    fn get_public_key(&self) -> PublicKey {
        self.0.get_public_key()
    }
}

/// A pair of the operating system's generator.
pub fn pair() -> Result<(PublicKey, Bound), &'static str> {
    fn wiped_when_dropped<T: ZeroizeOnDrop>(value: T) -> T {
        value
    }
    let (public, private) = try_keygen()?;
    Ok((public, Bound(wiped_when_dropped(private), b"a context")))
}
