// Made by tools/erase of crates/fips204_shake/src/ml_dsa_87.rt. Change that, not this.
// `tools/sets` made this file from that of 44: edit that one.
//! ML-DSA-87 over SHAKE256 and SHAKE128.

use crate::proved::fips204_shake::streams::{Shake128Stream, Shake256Stream};
use crate::proved::fips204::ml_dsa_87;
pub use crate::proved::fips204::ml_dsa_87::{PK_LEN, PREPARED_PK_LEN, PREPARED_SK_LEN, SIG_LEN, SK_LEN};
use crate::proved::fips204::traits::{CryptoRngCore, KeyGen};
use crate::proved::fips204_base::Fault;

/// Key generation.
pub type KG = ml_dsa_87::KG<Shake256Stream, Shake128Stream>;

/// A public key.
pub type PublicKey = ml_dsa_87::PublicKey<Shake256Stream, Shake128Stream>;

/// A private key.
pub type PrivateKey = ml_dsa_87::PrivateKey<Shake256Stream, Shake128Stream>;

/// A public key with its matrix, for many verifications.
pub type PreparedPublicKey = ml_dsa_87::PreparedPublicKey<Shake256Stream>;

/// A private key with its matrix, for many signatures.
pub type PreparedPrivateKey = ml_dsa_87::PreparedPrivateKey<Shake256Stream>;

/// Makes a key pair (Algorithm 1) from 32 bytes of the generator, which is asked once. Errors as for
/// `KeyGen::try_keygen_with_rng`.
pub fn try_keygen_with_rng<R: CryptoRngCore>(rng: &mut R) -> Result<(PublicKey, PrivateKey), Fault> {
    KG::try_keygen_with_rng(rng)
}
