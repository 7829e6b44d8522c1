//! Takes one set and no other feature, and names what the original exports without features.
#![no_std]

use core::num::NonZeroU32;
use fips204::ml_dsa_44::{PrivateKey, PublicKey, SIG_LEN, try_keygen_with_rng};
use fips204::traits::Signer;
use fips204::{CryptoRng, FillRng, RngCore, RngError};

/// A generator of this crate.
pub struct Counter(pub u8);

impl RngCore for Counter {
    fn next_u32(&mut self) -> u32 {
        0
    }
    fn next_u64(&mut self) -> u64 {
        0
    }
    fn fill_bytes(&mut self, dest: &mut [u8]) {
        self.try_fill_bytes(dest).unwrap();
    }
    fn try_fill_bytes(&mut self, dest: &mut [u8]) -> Result<(), RngError> {
        self.0 = self.0.checked_add(1).ok_or(NonZeroU32::MAX)?;
        dest.fill(self.0);
        Ok(())
    }
}

impl CryptoRng for Counter {}

/// A pair of this crate's generator.
pub fn pair(rng: &mut Counter) -> Result<(PublicKey, PrivateKey), &'static str> {
    try_keygen_with_rng(rng)
}

/// A signature with the bytes that a function gives.
pub fn sign(
    key: &PrivateKey,
    message: &[u8],
    fill: impl FnMut(&mut [u8]) -> bool,
) -> Result<[u8; SIG_LEN], &'static str> {
    key.try_sign_with_rng(&mut FillRng(fill), message, b"")
}
