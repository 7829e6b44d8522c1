//! What the tests of the repository call beside the public interface: the functions of public types that require something, which
//! the package keeps to itself. A trait has each of them by its own name, so that `use fips204::proved_for_tests::*` is enough.

use crate::proved::fips204::sets::{HasSet, Matrix, Set, SignatureSizes};
use crate::proved::fips204::types::{PreparedPrivateKey, PreparedPublicKey};
use crate::proved::fips204::xof::Xof;
#[cfg(feature = "sha2")]
use crate::proved::fips204::xof::{BlockHash, BlockReader};
use crate::proved::fips204_base::Fault;

/// `sign_each` of a prepared private key.
pub trait SignEach<const SIG_LEN: usize> {
    /// Signs each message with its own random bytes.
    fn sign_each(
        &self,
        seeds: &[[u8; 32]],
        messages: &[&[u8]],
        ctx: &[u8],
        out: &mut [Result<[u8; SIG_LEN], Fault>],
    );
}

impl<S, const K: usize, const L: usize, const SIG_LEN: usize, H: Xof> SignEach<SIG_LEN>
    for PreparedPrivateKey<K, L, H>
where
    Matrix<K, L>: HasSet<Set = S>,
    S: Set<Signature = [u8; SIG_LEN]> + SignatureSizes<K, L, SIG_LEN>,
{
    fn sign_each(
        &self,
        seeds: &[[u8; 32]],
        messages: &[&[u8]],
        ctx: &[u8],
        out: &mut [Result<[u8; SIG_LEN], Fault>],
    ) {
        PreparedPrivateKey::<K, L, H>::sign_each(self, seeds, messages, ctx, out);
    }
}

/// `verify_each` of a prepared public key.
pub trait VerifyEach<const SIG_LEN: usize> {
    /// Verifies the signature of each message.
    fn verify_each(
        &self,
        messages: &[&[u8]],
        signatures: &[[u8; SIG_LEN]],
        ctx: &[u8],
        out: &mut [bool],
    );
}

impl<S, const K: usize, const L: usize, const SIG_LEN: usize, H: Xof> VerifyEach<SIG_LEN>
    for PreparedPublicKey<K, L, H>
where
    Matrix<K, L>: HasSet<Set = S>,
    S: Set<Signature = [u8; SIG_LEN]> + SignatureSizes<K, L, SIG_LEN>,
{
    fn verify_each(
        &self,
        messages: &[&[u8]],
        signatures: &[[u8; SIG_LEN]],
        ctx: &[u8],
        out: &mut [bool],
    ) {
        PreparedPublicKey::<K, L, H>::verify_each(self, messages, signatures, ctx, out);
    }
}

/// `new` of a reader of blocks.
#[cfg(feature = "sha2")]
pub trait OfBlocks: Sized {
    /// A reader of so many blocks.
    fn new(parts: &[&[u8]], blocks: u32) -> Self;
}

#[cfg(feature = "sha2")]
impl<H: BlockHash<N>, const N: usize> OfBlocks for BlockReader<H, N> {
    fn new(parts: &[&[u8]], blocks: u32) -> Self {
        BlockReader::<H, N>::new(parts, blocks)
    }
}
