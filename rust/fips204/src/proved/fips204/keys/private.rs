// Made by tools/erase of crates/fips204/src/keys/private.rt. Change that, not this.
//! Private keys: the type, signing, and the key as bytes.

use super::random::{SignsInput, sign_drawn, sign_hedged, sign_seeded};
use crate::proved::fips204::input::Input;
use crate::proved::fips204::ml_dsa;
use crate::proved::fips204::sets::{HasSet, KeySizes, Matrix, Set, SignatureSizes};
use crate::proved::fips204::traits::{CryptoRngCore, SerDes, Signer};
use crate::proved::fips204::types::{KeyTransforms, PreparedPrivateKey, PublicKey, R, T0};
use crate::proved::fips204_base::Fault;
use crate::proved::fips204_base::encodings::sk_encode;
use crate::proved::fips204_base::hashing::write_expanded_a;
use crate::proved::fips204_base::xof::Xof;
use core::marker::PhantomData;

/// A private key of a parameter set with a matrix of `K` rows and `L` columns, over the XOFs `H` and `G`.
///
/// Its parts are the matrix's seed `rho`, the seed `cap_k` of the masks, the hash `tr` of the public key's bytes, the vectors
/// `s1` of `L` and `s2` of `K` polynomials with coefficients in `[-eta, eta]`, and `t0`, `K` polynomials with coefficients
/// in `[-4095, 4096]`.
// Contracts see it as these parts.
pub struct PrivateKey<const K: usize, const L: usize, H, G> {
    pub(crate) rho: [u8; 32],
    pub(crate) cap_k: [u8; 32],
    pub(crate) tr: [u8; 64],
    pub(crate) s1: [R; L],
    pub(crate) s2: [R; K],
    pub(crate) t0: [R; K],
    pub(crate) streams: PhantomData<(H, G)>,
}

impl<const K: usize, const L: usize, H, G> Clone for PrivateKey<K, L, H, G> {
    /// A copy of the key.
    fn clone(&self) -> Self {
        PrivateKey { ..*self }
    }
}

impl<S, const K: usize, const L: usize, const SIG_LEN: usize, H, G> Signer
    for PrivateKey<K, L, H, G>
where
    H: Xof,
    G: Xof,
    Matrix<K, L>: HasSet<Set = S>,
    S: Set<Signature = [u8; SIG_LEN]> + SignatureSizes<K, L, SIG_LEN>,
{
    type Signature = [u8; SIG_LEN];

    type PublicKey = PublicKey<K, L, H, G>;

    fn try_sign_with_rng<R: CryptoRngCore>(
        &self,
        rng: &mut R,
        message: &[u8],
        ctx: &[u8],
    ) -> Result<[u8; SIG_LEN], Fault> {
        sign_drawn(self, rng, &Input::Message(message, ctx), Fault::SignRng)
    }

    fn try_sign_with_seed(
        &self,
        seed: &[u8; 32],
        message: &[u8],
        ctx: &[u8],
    ) -> Result<[u8; SIG_LEN], Fault> {
        sign_seeded(self, seed, &Input::Message(message, ctx))
    }

    fn try_hash_sign_with_rng<R: CryptoRngCore>(
        &self,
        rng: &mut R,
        hash: &[u8],
        ctx: &[u8],
        hash_oid: &[u8],
    ) -> Result<[u8; SIG_LEN], Fault> {
        sign_drawn(
            self,
            rng,
            &Input::Digest(hash, ctx, hash_oid),
            Fault::HashRng,
        )
    }

    fn try_hash_sign_with_seed(
        &self,
        seed: &[u8; 32],
        hash: &[u8],
        ctx: &[u8],
        hash_oid: &[u8],
    ) -> Result<[u8; SIG_LEN], Fault> {
        sign_seeded(self, seed, &Input::Digest(hash, ctx, hash_oid))
    }

    fn get_public_key(&self) -> Result<PublicKey<K, L, H, G>, Fault> {
        ml_dsa::private_to_public_key::<K, L, H, G>(&S::params(), self)
    }
}

impl<S, const K: usize, const L: usize, const SIG_LEN: usize, H, G> SignsInput
    for PrivateKey<K, L, H, G>
where
    H: Xof,
    G: Xof,
    Matrix<K, L>: HasSet<Set = S>,
    S: Set<Signature = [u8; SIG_LEN]> + SignatureSizes<K, L, SIG_LEN>,
{
    type Signature = [u8; SIG_LEN];

    fn sign_with(&self, random: &[u8; 32], input: &Input<'_>) -> Result<[u8; SIG_LEN], Fault> {
        self.sign_input(random, input)
    }
}

impl<S, const K: usize, const L: usize, const SIG_LEN: usize, H, G> PrivateKey<K, L, H, G>
where
    H: Xof,
    G: Xof,
    Matrix<K, L>: HasSet<Set = S>,
    S: Set<Signature = [u8; SIG_LEN]> + SignatureSizes<K, L, SIG_LEN>,
{
    /// The hash that the key keeps, which signing hashes before the message: the hash of the public key's bytes if
    /// the key comes from key generation, and the bytes that stood there if it comes from bytes. The key's parts are
    /// in range.
    pub fn tr(&self) -> &[u8; 64] {
        &self.tr
    }

    /// Signs an input with the random bytes `seed`; 32 zeros give the deterministic variant.
    ///
    /// Errors: those of a message and of a digest, as the calls of `Signer` say, for these inputs; then
    /// `Fault::SamplingLimit` and `Fault::TooManyAttempts` as for `Signer::try_sign_with_seed`.
    pub fn sign_input(&self, seed: &[u8; 32], input: &Input<'_>) -> Result<[u8; SIG_LEN], Fault> {
        let mut signature = [0u8; SIG_LEN];
        self.write_signature(seed, input, &mut signature)?;
        Ok(signature)
    }

    /// Like `sign_input`, but signs into the caller's array: `private.write_signature(&random, &input, &mut signature)?`.
    ///
    /// Errors: those of `sign_input`; `signature` is then as it was.
    pub fn write_signature(
        &self,
        seed: &[u8; 32],
        input: &Input<'_>,
        signature: &mut [u8; SIG_LEN],
    ) -> Result<(), Fault> {
        let mu = ml_dsa::mu_of::<H>(&self.tr, input)?;
        ml_dsa::write_signature(&S::params(), self, &mu, seed, signature)
    }

    /// Signs a framed message `m` (Algorithm 7). The 32 random bytes are zeros without `hedged`; with it they
    /// are drawn from the generator, which is asked once.
    ///
    /// Errors: `Fault::InternalRng` if the generator fails; then `Fault::SamplingLimit` and
    /// `Fault::TooManyAttempts` as for `Signer::try_sign_with_seed`.
    pub fn sign_internal<R: CryptoRngCore>(
        &self,
        rng: &mut R,
        m: &[u8],
        hedged: bool,
    ) -> Result<[u8; SIG_LEN], Fault> {
        sign_hedged(self, rng, &Input::Framed(m), hedged)
    }

    /// Signs the hash `mu` of a framed message (Algorithm 7 from line 7 on). Random bytes and errors are
    /// those of `sign_internal`.
    pub fn sign_mu<R: CryptoRngCore>(
        &self,
        rng: &mut R,
        mu: &[u8; 64],
        hedged: bool,
    ) -> Result<[u8; SIG_LEN], Fault> {
        sign_hedged(self, rng, &Input::Mu(mu), hedged)
    }

    /// Tells whether the key is consistent: whether its t0 is the low part of `A s1 + s2` (Algorithm 6, lines 5
    /// and 6). Signatures of a consistent key verify under the public key that `get_public_key` returns, and under the
    /// one that is decoded from its bytes only if `tr` is the hash of these bytes: `is_pair` tells both.
    ///
    /// Errors: `Fault::SamplingLimit` if rejection sampling of the matrix reaches its limit.
    pub fn is_whole(&self) -> Result<bool, Fault> {
        ml_dsa::is_whole::<K, L, H, G>(&S::params(), self)
    }

    /// Samples the matrix once, for many signatures.
    ///
    /// Errors: `Fault::SamplingLimit` if rejection sampling of the matrix reaches its limit.
    ///
    /// Not inlined, so that what sampling takes leaves the stack before the key is used.
    #[inline(never)]
    pub fn prepare(&self) -> Result<PreparedPrivateKey<K, L, H>, Fault> {
        let mut sk = PreparedPrivateKey {
            key: PrivateKey {
                rho: self.rho,
                cap_k: self.cap_k,
                tr: self.tr,
                s1: self.s1,
                s2: self.s2,
                t0: self.t0,
                streams: PhantomData,
            },
            a_hat: [[T0; L]; K],
            transforms: KeyTransforms::zeros(),
        };
        write_expanded_a::<K, L, G>(&self.rho, &mut sk.a_hat)?;
        self.write_transforms(&mut sk.transforms);
        Ok(sk)
    }
}

impl<S, const K: usize, const L: usize, const PK_LEN: usize, const SK_LEN: usize, H, G> PrivateKey<
    K,
    L,
    H,
    G,
>
where
    H: Xof,
    G: Xof,
    Matrix<K, L>: HasSet<Set = S>,
    S: Set<PublicKey = [u8; PK_LEN], PrivateKey = [u8; SK_LEN]> + KeySizes<K, L, PK_LEN, SK_LEN>,
{
    /// Tells whether the key and the public key that `get_public_key` returns are a pair: whether the key is
    /// consistent, as `is_whole` tells, and its `tr` is the hash of that public key's bytes. Signatures of such a key
    /// also verify under the public key that is decoded from these bytes.
    ///
    /// Errors: `Fault::SamplingLimit` if rejection sampling of the matrix reaches its limit.
    pub fn is_pair(&self) -> Result<bool, Fault> {
        ml_dsa::is_pair::<K, L, PK_LEN, H, G>(&S::params(), self)
    }
}

impl<S, const K: usize, const L: usize, const PK_LEN: usize, const SK_LEN: usize, H, G> SerDes
    for PrivateKey<K, L, H, G>
where
    Matrix<K, L>: HasSet<Set = S>,
    S: Set<PublicKey = [u8; PK_LEN], PrivateKey = [u8; SK_LEN]> + KeySizes<K, L, PK_LEN, SK_LEN>,
{
    type ByteArray = [u8; SK_LEN];

    fn into_bytes(self) -> [u8; SK_LEN] {
        sk_encode(
            S::params().eta,
            &self.rho,
            &self.cap_k,
            &self.tr,
            &self.s1,
            &self.s2,
            &self.t0,
        )
    }

    /// Decodes a private key. Its t0 and `tr` are not checked: `is_whole` checks t0, and `is_pair` both.
    ///
    /// Errors: `Fault::KeyRange` if a coefficient of s1 or s2 is out of range, so that its field is above `2 eta`.
    ///
    /// Not inlined, so that what decoding needs leaves the stack before the key is used.
    #[inline(never)]
    fn try_from_bytes(ba: [u8; SK_LEN]) -> Result<PrivateKey<K, L, H, G>, Fault> {
        ml_dsa::expand_private(&S::params(), &ba)
    }
}
