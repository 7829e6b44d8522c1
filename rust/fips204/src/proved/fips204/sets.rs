// Made by tools/erase of crates/fips204/src/sets.rt. Change that, not this.
//! The parameter sets (FIPS 204, Tables 1 and 2): their names, with the lengths of keys and signatures, and the types
//! that implement `Set`.

use crate::proved::fips204::types::Params;
use crate::proved::fips204::{ml_dsa_44, ml_dsa_65, ml_dsa_87};

/// A parameter set by its name.
// Contracts see it as its row of the tables.
#[derive(Debug, Clone, Copy, PartialEq, Eq)]
pub enum SetName {
    /// ML-DSA-44.
    MlDsa44,
    /// ML-DSA-65.
    MlDsa65,
    /// ML-DSA-87.
    MlDsa87,
}

impl SetName {
    /// The number of bytes of a public key.
    pub fn public_key_len(self) -> usize {
        match self {
            SetName::MlDsa44 => ml_dsa_44::PK_LEN,
            SetName::MlDsa65 => ml_dsa_65::PK_LEN,
            SetName::MlDsa87 => ml_dsa_87::PK_LEN,
        }
    }

    /// The number of bytes of a private key.
    pub fn private_key_len(self) -> usize {
        match self {
            SetName::MlDsa44 => ml_dsa_44::SK_LEN,
            SetName::MlDsa65 => ml_dsa_65::SK_LEN,
            SetName::MlDsa87 => ml_dsa_87::SK_LEN,
        }
    }

    /// The number of bytes of a prepared public key.
    pub fn prepared_public_key_len(self) -> usize {
        match self {
            SetName::MlDsa44 => ml_dsa_44::PREPARED_PK_LEN,
            SetName::MlDsa65 => ml_dsa_65::PREPARED_PK_LEN,
            SetName::MlDsa87 => ml_dsa_87::PREPARED_PK_LEN,
        }
    }

    /// The number of bytes of a prepared private key.
    pub fn prepared_private_key_len(self) -> usize {
        match self {
            SetName::MlDsa44 => ml_dsa_44::PREPARED_SK_LEN,
            SetName::MlDsa65 => ml_dsa_65::PREPARED_SK_LEN,
            SetName::MlDsa87 => ml_dsa_87::PREPARED_SK_LEN,
        }
    }

    /// The number of bytes of a signature.
    pub fn signature_len(self) -> usize {
        match self {
            SetName::MlDsa44 => ml_dsa_44::SIG_LEN,
            SetName::MlDsa65 => ml_dsa_65::SIG_LEN,
            SetName::MlDsa87 => ml_dsa_87::SIG_LEN,
        }
    }
}

/// A parameter set: its numbers, and the byte arrays of its keys and signatures.
pub trait Set: Sized {
    /// The array of a signature.
    type Signature;

    /// The array of a public key.
    type PublicKey;

    /// The array of a private key.
    type PrivateKey;

    /// The numbers of the row.
    fn params() -> Params;
}

/// The sizes of a parameter set's signatures: a matrix of `K` rows and `L` columns, and `SIG_LEN` bytes.
pub trait SignatureSizes<const K: usize, const L: usize, const SIG_LEN: usize>: Set {
}

/// The sizes of a parameter set's keys: a matrix of `K` rows and `L` columns, `PK_LEN` bytes of a public key, and
/// `SK_LEN` bytes of a private one.
pub trait KeySizes<const K: usize, const L: usize, const PK_LEN: usize, const SK_LEN: usize>: Set {
}

/// A matrix of `K` rows and `L` columns, which determines the parameter set of a key type.
pub struct Matrix<const K: usize, const L: usize>;

/// The set that has this matrix.
pub trait HasSet: Sized {
    /// The set.
    type Set;
}
