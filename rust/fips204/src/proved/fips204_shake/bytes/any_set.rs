// Made by tools/erase of crates/fips204_shake/src/bytes/any_set.rt. Change that, not this.
//! The calls at a parameter set by its name.

use crate::proved::fips204_shake::bytes::calls::{MlDsa44, MlDsa65, MlDsa87};
use crate::proved::fips204_shake::bytes::refusal::Refusal;
use crate::proved::fips204::xof::Xof;
use crate::proved::fips204::{Input, SetName};
use core::marker::PhantomData;

/// A call of `MlDsa` at the parameter set of a name.
macro_rules! of_set {
    ($set:ident, $call:ident($($argument:expr),*)) => {
        match $set {
            SetName::MlDsa44 => MlDsa44::<H, G>::$call($($argument),*),
            SetName::MlDsa65 => MlDsa65::<H, G>::$call($($argument),*),
            SetName::MlDsa87 => MlDsa87::<H, G>::$call($($argument),*),
        }
    };
}

/// ML-DSA (FIPS 204) over bytes, over the XOFs `H` and `G`, for those who know the parameter set only when the program runs:
/// each call does what the call of `MlDsa` does at the parameter set of this name.
pub struct AnySet<H, G>(PhantomData<(H, G)>);

impl<H: Xof, G: Xof> AnySet<H, G> {
    /// `MlDsa::keygen` of the set of this name.
    #[inline(always)]
    pub fn keygen(
        set: SetName,
        seed: &[u8; 32],
        public_key: &mut [u8],
        private_key: &mut [u8],
    ) -> Result<(), Refusal> {
        of_set!(set, keygen(seed, public_key, private_key))
    }

    /// `MlDsa::sign` of the set of this name.
    #[inline(always)]
    pub fn sign(
        set: SetName,
        private_key: &[u8],
        random: &[u8; 32],
        input: &Input<'_>,
        signature: &mut [u8],
    ) -> Result<(), Refusal> {
        of_set!(set, sign(private_key, random, input, signature))
    }

    /// `MlDsa::verify` of the set of this name.
    #[inline(always)]
    pub fn verify(
        set: SetName,
        public_key: &[u8],
        input: &Input<'_>,
        signature: &[u8],
    ) -> Result<bool, Refusal> {
        of_set!(set, verify(public_key, input, signature))
    }

    /// `MlDsa::public_key` of the set of this name.
    #[inline(always)]
    pub fn public_key(
        set: SetName,
        private_key: &[u8],
        public_key: &mut [u8],
    ) -> Result<(), Refusal> {
        of_set!(set, public_key(private_key, public_key))
    }

    /// `MlDsa::check_private_key` of the set of this name.
    #[inline(always)]
    pub fn check_private_key(set: SetName, private_key: &[u8]) -> Result<(), Refusal> {
        of_set!(set, check_private_key(private_key))
    }

    /// `MlDsa::is_whole` of the set of this name.
    #[inline(always)]
    pub fn is_whole(set: SetName, private_key: &[u8]) -> Result<bool, Refusal> {
        of_set!(set, is_whole(private_key))
    }

    /// `MlDsa::is_pair` of the set of this name.
    #[inline(always)]
    pub fn is_pair(set: SetName, private_key: &[u8]) -> Result<bool, Refusal> {
        of_set!(set, is_pair(private_key))
    }

    /// `MlDsa::prepare_public_key` of the set of this name.
    #[inline(always)]
    pub fn prepare_public_key(
        set: SetName,
        public_key: &[u8],
        prepared: &mut [u8],
    ) -> Result<(), Refusal> {
        of_set!(set, prepare_public_key(public_key, prepared))
    }

    /// `MlDsa::verify_prepared` of the set of this name.
    #[inline(always)]
    pub fn verify_prepared(
        set: SetName,
        prepared: &[u8],
        input: &Input<'_>,
        signature: &[u8],
    ) -> Result<bool, Refusal> {
        of_set!(set, verify_prepared(prepared, input, signature))
    }

    /// `MlDsa::prepare_private_key` of the set of this name.
    #[inline(always)]
    pub fn prepare_private_key(
        set: SetName,
        private_key: &[u8],
        prepared: &mut [u8],
    ) -> Result<(), Refusal> {
        of_set!(set, prepare_private_key(private_key, prepared))
    }

    /// `MlDsa::sign_prepared` of the set of this name.
    #[inline(always)]
    pub fn sign_prepared(
        set: SetName,
        prepared: &[u8],
        random: &[u8; 32],
        input: &Input<'_>,
        signature: &mut [u8],
    ) -> Result<(), Refusal> {
        of_set!(set, sign_prepared(prepared, random, input, signature))
    }
}
