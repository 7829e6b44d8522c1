//! The parameter sets as types.

use crate::Error;
use crate::traits::{KeyGen, SerDes, Signer, Verifier};

/// Only the sets of this crate are sets.
#[allow(dead_code)] // no set may be chosen
pub trait Sealed {}

/// A parameter set, for code that is generic over it. No other crate can implement it.
///
/// ```
/// # #[cfg(feature = "ml-dsa-65-bare")] {
/// use fips204::traits::{KeyGen, Signer, Verifier};
/// use fips204::{MlDsa65, MlDsaParams};
///
/// fn works<P: MlDsaParams>() -> Result<bool, &'static str> {
///     let (public, private) = P::KeyGen::keygen_from_seed(&[7; 32]); // a seed is secret, and random
///     let signature = private.try_sign_with_seed(&[0; 32], b"a message", b"a context")?;
///     Ok(P::is_pair(&private)? && P::prepare_public(&public).verify(b"a message", &signature, b"a context"))
/// }
///
/// assert_eq!(works::<MlDsa65>(), Ok(true));
/// # }
/// ```
pub trait MlDsaParams: Sealed + Copy + core::fmt::Debug + Send + Sync + 'static {
    /// The name of the set, as FIPS 204 has it.
    const NAME: &'static str;

    /// The array of a signature.
    type Signature: AsRef<[u8]> + for<'a> TryFrom<&'a [u8]> + Copy + Send + Sync + 'static;

    /// A public key.
    type PublicKey: Verifier<Signature = Self::Signature>
        + SerDes<ByteArray: AsRef<[u8]>>
        + AsRef<[u8]>
        + for<'a> TryFrom<&'a [u8], Error = Error>
        + Clone
        + Eq
        + core::hash::Hash
        + core::fmt::Debug
        + Send
        + Sync
        + 'static;

    /// A private key.
    type PrivateKey: Signer<Signature = Self::Signature, PublicKey = Self::PublicKey>
        + SerDes<ByteArray: AsRef<[u8]>>
        + for<'a> TryFrom<&'a [u8], Error = Error>
        + Clone
        + core::fmt::Debug
        + Send
        + Sync
        + 'static;

    /// A public key with its matrix.
    type PreparedPublicKey: Verifier<Signature = Self::Signature>
        + Clone
        + core::fmt::Debug
        + Send
        + Sync
        + 'static;

    /// A private key with its matrix.
    type PreparedPrivateKey: Signer<Signature = Self::Signature, PublicKey = Self::PublicKey>
        + Clone
        + core::fmt::Debug
        + Send
        + Sync
        + 'static;

    /// Key generation.
    type KeyGen: KeyGen<PublicKey = Self::PublicKey, PrivateKey = Self::PrivateKey>;

    /// `prepare` of a public key.
    ///
    /// # Panics
    /// As that.
    fn prepare_public(key: &Self::PublicKey) -> Self::PreparedPublicKey;

    /// `prepare` of a private key.
    ///
    /// # Panics
    /// As that.
    fn prepare_private(key: &Self::PrivateKey) -> Self::PreparedPrivateKey;

    /// `is_pair` of a private key.
    ///
    /// # Errors
    /// As of that.
    fn is_pair(key: &Self::PrivateKey) -> Result<bool, Error>;
}

/// The type of a set whose module is there.
#[cfg(any(
    feature = "ml-dsa-44-bare",
    feature = "ml-dsa-65-bare",
    feature = "ml-dsa-87-bare"
))]
macro_rules! set_as_type {
    ($set:ident, $module:ident, $name:literal) => {
        #[doc = concat!($name, ", for code that is generic over the set.")]
        #[derive(Debug, Clone, Copy, PartialEq, Eq, Hash)]
        pub struct $set;

        impl Sealed for $set {}

        impl MlDsaParams for $set {
            const NAME: &'static str = $name;

            type Signature = [u8; crate::$module::SIG_LEN];
            type PublicKey = crate::$module::PublicKey;
            type PrivateKey = crate::$module::PrivateKey;
            type PreparedPublicKey = crate::$module::PreparedPublicKey;
            type PreparedPrivateKey = crate::$module::PreparedPrivateKey;
            type KeyGen = crate::$module::KG;

            fn prepare_public(key: &Self::PublicKey) -> Self::PreparedPublicKey {
                key.prepare()
            }

            fn prepare_private(key: &Self::PrivateKey) -> Self::PreparedPrivateKey {
                key.prepare()
            }

            fn is_pair(key: &Self::PrivateKey) -> Result<bool, Error> {
                key.is_pair()
            }
        }
    };
}

#[cfg(feature = "ml-dsa-44-bare")]
set_as_type!(MlDsa44, ml_dsa_44, "ML-DSA-44");
#[cfg(feature = "ml-dsa-65-bare")]
set_as_type!(MlDsa65, ml_dsa_65, "ML-DSA-65");
#[cfg(feature = "ml-dsa-87-bare")]
set_as_type!(MlDsa87, ml_dsa_87, "ML-DSA-87");
