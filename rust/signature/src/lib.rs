//! What corkaife-fips204 names of `signature` 2, with the same signatures. For tests alone.
#![no_std]

/// An error that tells nothing.
#[derive(Debug, Default)]
pub struct Error {
    _private: (),
}

impl Error {
    /// The error.
    #[must_use]
    pub fn new() -> Self {
        Self::default()
    }
}

impl core::fmt::Display for Error {
    fn fmt(&self, f: &mut core::fmt::Formatter<'_>) -> core::fmt::Result {
        f.write_str("signature error")
    }
}

impl core::error::Error for Error {}

/// A key that signs.
pub trait Signer<S> {
    /// Signs a message.
    ///
    /// # Panics
    /// The key could not.
    fn sign(&self, msg: &[u8]) -> S {
        self.try_sign(msg).expect("signature operation failed")
    }

    /// Signs a message, or fails.
    ///
    /// # Errors
    /// The key could not.
    fn try_sign(&self, msg: &[u8]) -> Result<S, Error>;
}

/// A key that signs with random bytes.
#[cfg(feature = "rand_core")]
pub trait RandomizedSigner<S> {
    /// Signs a message, or fails.
    ///
    /// # Errors
    /// The key or the generator could not.
    fn try_sign_with_rng(
        &self,
        rng: &mut (impl rand_core::CryptoRng + rand_core::RngCore),
        msg: &[u8],
    ) -> Result<S, Error>;
}

/// A key that verifies.
pub trait Verifier<S> {
    /// Verifies the signature of a message.
    ///
    /// # Errors
    /// It is not accepted.
    fn verify(&self, msg: &[u8], signature: &S) -> Result<(), Error>;
}

/// A private key that has its public key.
pub trait Keypair {
    /// The public key.
    type VerifyingKey: Clone;

    /// The public key.
    fn verifying_key(&self) -> Self::VerifyingKey;
}

/// A signature that is bytes.
pub trait SignatureEncoding:
    Clone + Sized + for<'a> TryFrom<&'a [u8]> + TryInto<Self::Repr>
{
    /// The bytes.
    type Repr: 'static + AsRef<[u8]> + Clone + Send + Sync;

    /// The bytes.
    fn to_bytes(&self) -> Self::Repr {
        self.clone()
            .try_into()
            .ok()
            .expect("signature encoding error")
    }

    /// How many bytes it has.
    fn encoded_len(&self) -> usize {
        self.to_bytes().as_ref().len()
    }
}
