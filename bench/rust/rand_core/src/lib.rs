//! The crate `rand_core`, with the trait `CryptoRngCore` also where that crate is 0.6.3, as in Debian 12.
#![no_std]

pub use rand_core::*;

/// A generator that is fit for cryptography, as an object of one trait.
pub trait CryptoRngCore: CryptoRng + RngCore {
    /// The generator as an object.
    fn as_rngcore(&mut self) -> &mut dyn RngCore;
}

impl<G: CryptoRng + RngCore> CryptoRngCore for G {
    fn as_rngcore(&mut self) -> &mut dyn RngCore {
        self
    }
}
