// Made by tools/erase of crates/fips204/src/ml_dsa_44.rt. Change that, not this.
//! ML-DSA-44 (FIPS 204, Table 1).

use crate::proved::fips204::sets::{HasSet, KeySizes, Matrix, Set, SignatureSizes};
use crate::proved::fips204::traits::{CryptoRngCore, KeyGen};
use crate::proved::fips204::types::{self, ML_DSA_44, Params};
use crate::proved::fips204_base::Fault;
use crate::proved::fips204_base::xof::Xof;

/// The number of bytes of a private key (FIPS 204, Table 2).
pub const SK_LEN: usize = 2560;

/// The number of bytes of a public key (FIPS 204, Table 2).
pub const PK_LEN: usize = 1312;

/// The number of bytes of a prepared private key: those of the private key, and 1024 for each entry of the matrix.
pub const PREPARED_SK_LEN: usize = 18_944;

/// The number of bytes of a prepared public key: those of the public key, 64 of its hash, and 1024 for each entry of
/// the matrix.
pub const PREPARED_PK_LEN: usize = 17_760;

/// The number of bytes of a signature (FIPS 204, Table 2).
pub const SIG_LEN: usize = 2420;

/// The number of rows of the matrix (FIPS 204, Table 1).
pub(crate) const K: usize = 4;

/// The number of columns of the matrix (FIPS 204, Table 1).
pub(crate) const L: usize = 4;

/// A private key.
pub type PrivateKey<H, G> = types::PrivateKey<K, L, H, G>;

/// A public key.
pub type PublicKey<H, G> = types::PublicKey<K, L, H, G>;

/// A private key with its matrix, for many signatures.
pub type PreparedPrivateKey<H> = types::PreparedPrivateKey<K, L, H>;

/// A public key with its matrix, for many verifications.
pub type PreparedPublicKey<H> = types::PreparedPublicKey<K, L, H>;

/// Key generation.
pub type KG<H, G> = types::KG<K, L, H, G>;

/// Makes a key pair (Algorithm 1) from 32 bytes of the generator, which is asked once. Errors as for
/// `KeyGen::try_keygen_with_rng`.
pub fn try_keygen_with_rng<H: Xof, G: Xof, R: CryptoRngCore>(
    rng: &mut R,
) -> Result<(PublicKey<H, G>, PrivateKey<H, G>), Fault> {
    KG::<H, G>::try_keygen_with_rng(rng)
}

/// The parameter set.
pub struct MlDsa44;

impl HasSet for Matrix<K, L> {
    type Set = MlDsa44;
}

impl Set for MlDsa44 {
    type Signature = [u8; SIG_LEN];

    type PublicKey = [u8; PK_LEN];

    type PrivateKey = [u8; SK_LEN];

    fn params() -> Params {
        ML_DSA_44
    }
}

impl SignatureSizes<K, L, SIG_LEN> for MlDsa44 {
}

impl KeySizes<K, L, PK_LEN, SK_LEN> for MlDsa44 {
}
