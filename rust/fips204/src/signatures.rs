//! The traits of the crate `signature`, of its versions 2 and 3.
#![allow(unused_macros, unused_imports)] // no set may be chosen, or none of the versions

use crate::Error;
use crate::error::WRONG_LENGTH;
use crate::set::{Named, PrivateKey, PublicKey, Set};
use crate::traits::Signer as _;

/// A signature. It is a type of its own, because the crate `signature` asks for that.
///
/// ```
/// # #[cfg(all(feature = "ml-dsa-65-bare", feature = "signature"))] {
/// use fips204::ml_dsa_65::{KG, Signature};
/// use fips204::traits::KeyGen;
/// use signature::{SignatureEncoding, Signer, Verifier};
///
/// let (public, private) = KG::keygen_from_seed(&[7; 32]); // a seed is secret, and random
/// let signature: Signature = private.sign(b"a message");
/// let stored = signature.to_bytes();
/// assert!(public.verify(b"a message", &Signature::from(stored)).is_ok());
/// # }
/// ```
#[derive(Clone, Copy, PartialEq, Eq, Hash)]
pub struct Signature<const SIG: usize>(pub(crate) [u8; SIG]);

impl<const SIG: usize> core::fmt::Debug for Signature<SIG> {
    fn fmt(&self, f: &mut core::fmt::Formatter<'_>) -> core::fmt::Result {
        f.debug_tuple("Signature").field(&&self.0[..]).finish()
    }
}

impl<const SIG: usize> From<[u8; SIG]> for Signature<SIG> {
    fn from(bytes: [u8; SIG]) -> Self {
        Signature(bytes)
    }
}

impl<const SIG: usize> From<Signature<SIG>> for [u8; SIG] {
    fn from(signature: Signature<SIG>) -> Self {
        signature.0
    }
}

impl<const SIG: usize> AsRef<[u8]> for Signature<SIG> {
    fn as_ref(&self) -> &[u8] {
        &self.0
    }
}

/// Fails with an array of another length.
impl<const SIG: usize> TryFrom<&[u8]> for Signature<SIG> {
    type Error = Error;

    fn try_from(bytes: &[u8]) -> Result<Self, Error> {
        Ok(Signature(bytes.try_into().map_err(|_| WRONG_LENGTH)?))
    }
}

/// The traits of one version for a private key, plain or prepared: what stands before it, its type, and its condition.
macro_rules! signs {
    ($lib:ident, ($($before:tt)*), $key:ty, $public:ty, $sig:ty, ($($condition:tt)*)) => {
        /// Signs under the empty context by the deterministic variant, as `try_sign_with_seed` with 32 zeros does.
        impl $($before)* $lib::Signer<$sig> for $key $($condition)* {
            fn try_sign(&self, message: &[u8]) -> Result<$sig, $lib::Error> {
                let signed = self.try_sign_with_seed(&[0; 32], message, b"");
                signed.map(Into::into).map_err(|_| $lib::Error::new())
            }
        }

        impl $($before)* $lib::Keypair for $key $($condition)* {
            type VerifyingKey = $public;

            /// # Panics
            /// As `get_public_key`.
            fn verifying_key(&self) -> $public {
                self.get_public_key()
            }
        }
    };
}

/// The same for a public key.
macro_rules! verifies {
    ($lib:ident, ($($before:tt)*), $key:ty, $sig:ty, ($($condition:tt)*)) => {
        /// Verifies under the empty context.
        impl $($before)* $lib::Verifier<$sig> for $key $($condition)* {
            fn verify(&self, message: &[u8], signature: &$sig) -> Result<(), $lib::Error> {
                match crate::traits::Verifier::verify(self, message, &signature.0, b"") {
                    true => Ok(()),
                    false => Err($lib::Error::new()),
                }
            }
        }
    };
}

/// `RandomizedSigner` of version 2, with a generator of `rand_core` 0.6.
#[cfg(feature = "signature")]
macro_rules! draws_2 {
    (($($before:tt)*), $key:ty, $sig:ty, ($($condition:tt)*)) => {
        /// Signs under the empty context, as `try_sign_with_rng` does.
        impl $($before)* signature::RandomizedSigner<$sig> for $key $($condition)* {
            fn try_sign_with_rng(
                &self,
                rng: &mut (impl crate::RngCore + crate::CryptoRng),
                message: &[u8],
            ) -> Result<$sig, signature::Error> {
                let signed = crate::traits::Signer::try_sign_with_rng(self, rng, message, b"");
                signed.map(Into::into).map_err(|_| signature::Error::new())
            }
        }
    };
}

/// `RandomizedSigner` of version 3, with a generator of `rand_core` 0.10.
#[cfg(feature = "signature-3")]
macro_rules! draws_3 {
    (($($before:tt)*), $key:ty, $sig:ty, ($($condition:tt)*)) => {
        /// Signs under the empty context with 32 bytes of the generator, which is asked once.
        impl $($before)* signature_3::RandomizedSigner<$sig> for $key $($condition)* {
            fn try_sign_with_rng<R: signature_3::rand_core::TryCryptoRng + ?Sized>(
                &self,
                rng: &mut R,
                message: &[u8],
            ) -> Result<$sig, signature_3::Error> {
                let mut random = crate::wiped::Wiped::<32>::zeros();
                let drawn = rng.try_fill_bytes(random.array_mut());
                drawn.map_err(|_| signature_3::Error::new())?;
                let signed = self.try_sign_with_seed(random.array(), message, b"");
                signed.map(Into::into).map_err(|_| signature_3::Error::new())
            }
        }
    };
}

/// The traits of one version for all keys of this crate.
macro_rules! of_version {
    ($lib:ident, $draws:ident) => {
        impl<const SIG: usize> $lib::SignatureEncoding for Signature<SIG> {
            type Repr = [u8; SIG];
        }

        of_version!(@keys $lib, $draws, (<const PK: usize, const SK: usize, const SIG: usize>), PrivateKey<PK, SK, SIG>,
            PublicKey<PK, SK, SIG>, PublicKey<PK, SK, SIG>, Signature<SIG>, (where Set<PK, SK, SIG>: Named));
        #[cfg(feature = "ml-dsa-44-bare")]
        of_version!(@prepared $lib, $draws, ml_dsa_44);
        #[cfg(feature = "ml-dsa-65-bare")]
        of_version!(@prepared $lib, $draws, ml_dsa_65);
        #[cfg(feature = "ml-dsa-87-bare")]
        of_version!(@prepared $lib, $draws, ml_dsa_87);
    };
    (@prepared $lib:ident, $draws:ident, $set:ident) => {
        const _: () = {
            use crate::$set::{PreparedPrivateKey, PreparedPublicKey, PublicKey, Signature};
            of_version!(@keys $lib, $draws, (), PreparedPrivateKey, PublicKey, PreparedPublicKey, Signature, ());
        };
    };
    (@keys $lib:ident, $draws:ident, $before:tt, $private:ty, $public:ty, $verifier:ty, $sig:ty, $condition:tt) => {
        signs!($lib, $before, $private, $public, $sig, $condition);
        $draws!($before, $private, $sig, $condition);
        verifies!($lib, $before, $verifier, $sig, $condition);
    };
}

#[cfg(feature = "signature")]
of_version!(signature, draws_2);
#[cfg(feature = "signature-3")]
of_version!(signature_3, draws_3);
