// Made by tools/erase of crates/fips204/src/types.rt. Change that, not this.
//! Polynomials, the numbers of each parameter set, and by name the keys.

pub mod pre_hash;

pub(crate) use crate::proved::fips204::keys::KeyTransforms;
pub use crate::proved::fips204::keys::{PreparedPrivateKey, PreparedPublicKey, PrivateKey, PublicKey};
pub use crate::proved::fips204_base::types::{R, R0, T, T0, Zq};
use core::marker::PhantomData;

/// The numbers of a parameter set (FIPS 204, Tables 1 and 2): those of one of the three sets.
#[derive(Clone, Copy, Debug, PartialEq, Eq)]
pub struct Params {
    /// `tau`: how many coefficients of a challenge are 1 or -1.
    pub tau: i32,
    /// `lambda`: the collision strength of `c_tilde` in bits, which has `lambda / 4` bytes.
    pub lambda: usize,
    /// `gamma1`: the coefficients of a mask are in `[-gamma1 + 1, gamma1]`.
    pub gamma1: i32,
    /// `gamma2`: the low parts of `Decompose` are in `[-gamma2, gamma2]`.
    pub gamma2: i32,
    /// How many rows the matrix has.
    pub k: usize,
    /// How many columns the matrix has.
    pub l: usize,
    /// `eta`: the coefficients of s1 and s2 are in `[-eta, eta]`.
    pub eta: i32,
    /// `beta`: the product of tau and eta.
    pub beta: i32,
    /// `omega`: the largest number of ones in a hint.
    pub omega: i32,
}

impl Params {
    /// The exclusive bound on the norm of z: `gamma1 - beta`.
    pub(crate) fn z_bound(&self) -> u32 {
        self.gamma1.unsigned_abs() - self.beta.unsigned_abs()
    }

    /// The number of bytes of `c_tilde`: `lambda / 4`.
    pub(crate) fn c_tilde_len(&self) -> usize {
        self.lambda / 4
    }

    /// The number of bytes of `w1`: 768, 768 and 1024 at the three sets.
    pub(crate) fn w1_len(&self) -> usize {
        if self.k == 8 { 1024 } else { 768 }
    }

    /// The exclusive bound on the norm of r0: `gamma2 - beta`.
    pub(crate) fn r0_bound(&self) -> u32 {
        self.gamma2.unsigned_abs() - self.beta.unsigned_abs()
    }
}

/// The numbers of ML-DSA-44.
pub const ML_DSA_44: Params = Params {
    tau: 39,
    lambda: 128,
    gamma1: 131_072,
    gamma2: 95_232,
    k: 4,
    l: 4,
    eta: 2,
    beta: 78,
    omega: 80,
};

/// The numbers of ML-DSA-65.
pub const ML_DSA_65: Params = Params {
    tau: 49,
    lambda: 192,
    gamma1: 524_288,
    gamma2: 261_888,
    k: 6,
    l: 5,
    eta: 4,
    beta: 196,
    omega: 55,
};

/// The numbers of ML-DSA-87.
pub const ML_DSA_87: Params = Params {
    tau: 60,
    lambda: 256,
    gamma1: 524_288,
    gamma2: 261_888,
    k: 8,
    l: 7,
    eta: 2,
    beta: 120,
    omega: 75,
};

/// Key generation of the parameter set with a matrix of `K` rows and `L` columns, over the XOFs `H` and `G`.
pub struct KG<const K: usize, const L: usize, H, G>(PhantomData<(H, G)>);
