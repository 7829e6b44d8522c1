// Made by tools/erase of crates/fips204/src/keys/prepared.rt. Change that, not this.
//! Keys that are prepared once for many calls: a key with the matrix of its seed and the transforms of its vectors. Their calls
//! are those of the plain keys, and many messages in one call; each returns what the plain key's call of the same name
//! returns, in fewer steps.

mod by_bytes;
mod bytes;

use super::random::{SignsInput, sign_drawn, sign_hedged, sign_seeded};
use crate::proved::fips204::input::Input;
use crate::proved::fips204::ml_dsa;
use crate::proved::fips204::sets::{HasSet, Matrix, Set, SignatureSizes};
use crate::proved::fips204::traits::CryptoRngCore;
use crate::proved::fips204::types::{PrivateKey, R, R0, T};
use crate::proved::fips204_base::Fault;
use crate::proved::fips204_base::product::Transforms;
use crate::proved::fips204_base::xof::Xof;
use core::marker::PhantomData;

/// The transforms of a private key's vectors (FIPS 204, Algorithm 7, lines 2 to 4).
pub struct KeyTransforms {
    pub(crate) s1_hat: Transforms,
    pub(crate) s2_hat: Transforms,
    pub(crate) t0_hat: Transforms,
}

impl KeyTransforms {
    /// The transforms of vectors of zeros.
    pub(crate) fn zeros() -> KeyTransforms {
        KeyTransforms {
            s1_hat: Transforms::zeros(),
            s2_hat: Transforms::zeros(),
            t0_hat: Transforms::zeros(),
        }
    }
}

/// A private key of a parameter set with a matrix of `K` rows and `L` columns, over the XOF `H`, with its matrix and
/// the transforms of its vectors.
// Contracts see it as the private key's parts and the matrix, whose entries are the transforms of the plain matrix.
pub struct PreparedPrivateKey<const K: usize, const L: usize, H> {
    pub(crate) key: PrivateKey<K, L, H, ()>,
    pub(crate) a_hat: [[T; L]; K],
    pub(crate) transforms: KeyTransforms,
}

/// A public key of a parameter set with a matrix of `K` rows and `L` columns, over the XOF `H`, with its matrix and the
/// transforms of `t1 2^d`.
// Contracts see it as the public key's parts and the matrix, whose entries are the transforms of the plain matrix.
pub struct PreparedPublicKey<const K: usize, const L: usize, H> {
    // The plain key's parts, one by one: an entire key would first be put together in the stack beside this one.
    pub(crate) rho: [u8; 32],
    pub(crate) tr: [u8; 64],
    pub(crate) t1: [R; K],
    pub(crate) a_hat: [[T; L]; K],
    pub(crate) t1_hat: Transforms,
    pub(crate) stream: PhantomData<H>,
}

impl<const K: usize, const L: usize, H> PreparedPublicKey<K, L, H> {
    /// The hash of the key's bytes, as `PublicKey::tr`. The key's parts and its matrix are in range.
    pub fn tr(&self) -> &[u8; 64] {
        &self.tr
    }
}

impl<S, const K: usize, const L: usize, const SIG_LEN: usize, H> SignsInput
    for PreparedPrivateKey<K, L, H>
where
    H: Xof,
    Matrix<K, L>: HasSet<Set = S>,
    S: Set<Signature = [u8; SIG_LEN]> + SignatureSizes<K, L, SIG_LEN>,
{
    type Signature = [u8; SIG_LEN];

    fn sign_with(&self, random: &[u8; 32], input: &Input<'_>) -> Result<[u8; SIG_LEN], Fault> {
        self.sign_input(random, input)
    }
}

impl<S, const K: usize, const L: usize, const SIG_LEN: usize, H> PreparedPrivateKey<K, L, H>
where
    H: Xof,
    Matrix<K, L>: HasSet<Set = S>,
    S: Set<Signature = [u8; SIG_LEN]> + SignatureSizes<K, L, SIG_LEN>,
{
    /// The hash that the key keeps, which signing hashes before the message. The key's parts and its matrix are in
    /// range.
    pub fn tr(&self) -> &[u8; 64] {
        &self.key.tr
    }

    /// The public key that belongs to the key, prepared too. Never returns an error.
    pub fn get_public_key(&self) -> Result<PreparedPublicKey<K, L, H>, Fault> {
        let plain = &self.key;
        let mut pk = PreparedPublicKey {
            rho: plain.rho,
            tr: plain.tr,
            t1: [R0; K],
            a_hat: self.a_hat,
            t1_hat: Transforms::zeros(),
            stream: PhantomData,
        };
        ml_dsa::write_high_part(&S::params(), &self.a_hat, &plain.s1, &plain.s2, &mut pk.t1);
        ml_dsa::write_shifted_transforms(&pk.t1, &mut pk.t1_hat);
        Ok(pk)
    }

    /// Signs an input with the random bytes `seed`: `key.sign_input(&random, &Input::Message(b"message", b""))?`.
    ///
    /// Errors: those of `PrivateKey::sign_input`.
    pub fn sign_input(&self, seed: &[u8; 32], input: &Input<'_>) -> Result<[u8; SIG_LEN], Fault> {
        let mut signature = [0u8; SIG_LEN];
        self.write_signature(seed, input, &mut signature)?;
        Ok(signature)
    }

    /// Like `sign_input`, but signs into the caller's array: `key.write_signature(&random, &input, &mut signature)?`.
    ///
    /// Errors: those of `sign_input`; `signature` is then as it was.
    pub fn write_signature(
        &self,
        seed: &[u8; 32],
        input: &Input<'_>,
        signature: &mut [u8; SIG_LEN],
    ) -> Result<(), Fault> {
        let key = ml_dsa::SigningKey {
            key: &self.key,
            a_hat: &self.a_hat,
            transforms: &self.transforms,
        };
        key.write_signature(&S::params(), input, seed, signature)
    }

    /// Signs a message (Algorithm 2) with 32 random bytes of the generator, which is asked once:
    /// `private.prepare()?.try_sign_with_rng(&mut rng, b"message", b"context")?`.
    ///
    /// Errors, in this order: `Fault::SignCtx` if `ctx` has more than 255 bytes (the generator is then not asked);
    /// `Fault::SignRng` if the generator fails; then those of `sign_input` after those of the input.
    pub fn try_sign_with_rng<R: CryptoRngCore>(
        &self,
        rng: &mut R,
        message: &[u8],
        ctx: &[u8],
    ) -> Result<[u8; SIG_LEN], Fault> {
        sign_drawn(self, rng, &Input::Message(message, ctx), Fault::SignRng)
    }

    /// Signs a message (Algorithm 2) with the random bytes `seed`:
    /// `private.prepare()?.try_sign_with_seed(&random, b"message", b"context")?`.
    ///
    /// Errors: `Fault::SignCtx` if `ctx` has more than 255 bytes; then those of `sign_input` after those of the input.
    pub fn try_sign_with_seed(
        &self,
        seed: &[u8; 32],
        message: &[u8],
        ctx: &[u8],
    ) -> Result<[u8; SIG_LEN], Fault> {
        sign_seeded(self, seed, &Input::Message(message, ctx))
    }

    /// Signs a digest (Algorithm 4) with 32 random bytes of the generator, which is asked once. `hash_oid` is the DER
    /// object identifier of the hash function: `key.try_hash_sign_with_rng(&mut rng, &digest, b"context", &SHA2_256)?`.
    ///
    /// Errors, in this order: `Fault::HashCtx` if `ctx` has more than 255 bytes; those of `check_pre_hash` (in both
    /// cases the generator is not asked); `Fault::HashRng` if the generator fails; then those of `sign_input` after
    /// those of the input.
    pub fn try_hash_sign_with_rng<R: CryptoRngCore>(
        &self,
        rng: &mut R,
        hash: &[u8],
        ctx: &[u8],
        hash_oid: &[u8],
    ) -> Result<[u8; SIG_LEN], Fault> {
        sign_drawn(
            self,
            rng,
            &Input::Digest(hash, ctx, hash_oid),
            Fault::HashRng,
        )
    }

    /// Signs a digest (Algorithm 4) with the random bytes `seed`:
    /// `key.try_hash_sign_with_seed(&random, &digest, b"context", &SHA2_256)?`.
    ///
    /// Errors, in this order: `Fault::HashCtx` if `ctx` has more than 255 bytes; those of `check_pre_hash`; then those
    /// of `sign_input` after those of the input.
    pub fn try_hash_sign_with_seed(
        &self,
        seed: &[u8; 32],
        hash: &[u8],
        ctx: &[u8],
        hash_oid: &[u8],
    ) -> Result<[u8; SIG_LEN], Fault> {
        sign_seeded(self, seed, &Input::Digest(hash, ctx, hash_oid))
    }

    /// Signs a framed message `m` (Algorithm 7). The 32 random bytes are zeros without `hedged`; with it they are
    /// drawn from the generator, which is asked once: `key.sign_internal(&mut rng, &framed, true)?`.
    ///
    /// Errors: `Fault::InternalRng` if the generator fails; then those of `sign_input` after those of the input.
    pub fn sign_internal<R: CryptoRngCore>(
        &self,
        rng: &mut R,
        m: &[u8],
        hedged: bool,
    ) -> Result<[u8; SIG_LEN], Fault> {
        sign_hedged(self, rng, &Input::Framed(m), hedged)
    }

    /// Signs the hash `mu` of a framed message (Algorithm 7 from line 7 on): `key.sign_mu(&mut rng, &mu, true)?`.
    /// Random bytes and errors are those of `sign_internal`.
    pub fn sign_mu<R: CryptoRngCore>(
        &self,
        rng: &mut R,
        mu: &[u8; 64],
        hedged: bool,
    ) -> Result<[u8; SIG_LEN], Fault> {
        sign_hedged(self, rng, &Input::Mu(mu), hedged)
    }

    /// Signs each message with its own 32 random bytes, under one context: `out[i]` becomes the result of
    /// `try_sign_with_seed` for seed and message `i`. `seeds`, `messages` and `out` have the same length:
    /// `key.sign_each(&seeds, &[b"one", b"two"], b"context", &mut results)`.
    pub(crate) fn sign_each(
        &self,
        seeds: &[[u8; 32]],
        messages: &[&[u8]],
        ctx: &[u8],
        out: &mut [Result<[u8; SIG_LEN], Fault>],
    ) {
        for i in 0..messages.len() {
            out[i] = self.try_sign_with_seed(&seeds[i], messages[i], ctx);
        }
    }
}

impl<S, const K: usize, const L: usize, const SIG_LEN: usize, H> PreparedPublicKey<K, L, H>
where
    H: Xof,
    Matrix<K, L>: HasSet<Set = S>,
    S: Set<Signature = [u8; SIG_LEN]> + SignatureSizes<K, L, SIG_LEN>,
{
    /// Verifies the signature of an input: `key.accepts_input(&Input::Message(b"message", b""), &signature)`. Returns
    /// false if the input is rejected.
    pub fn accepts_input(&self, input: &Input<'_>, signature: &[u8; SIG_LEN]) -> bool {
        match ml_dsa::mu_of::<H>(&self.tr, input) {
            Ok(mu) => ml_dsa::verify_prepared::<K, L, H>(&S::params(), self, &mu, signature),
            Err(_) => false,
        }
    }

    /// Verifies the signature of a message (Algorithm 3): `public.prepare()?.verify(b"message", &signature, b"context")`.
    /// Returns false if `ctx` has more than 255 bytes.
    pub fn verify(&self, message: &[u8], signature: &[u8; SIG_LEN], ctx: &[u8]) -> bool {
        self.accepts_input(&Input::Message(message, ctx), signature)
    }

    /// Verifies the signature of a digest (Algorithm 5): `key.hash_verify(&digest, &signature, b"context", &SHA2_256)`.
    /// Returns false if `ctx` has more than 255 bytes, or if `check_pre_hash` returns an error.
    pub fn hash_verify(
        &self,
        hash: &[u8],
        signature: &[u8; SIG_LEN],
        ctx: &[u8],
        hash_oid: &[u8],
    ) -> bool {
        self.accepts_input(&Input::Digest(hash, ctx, hash_oid), signature)
    }

    /// Verifies the signature of a framed message `m` (Algorithm 8): `key.verify_internal(&framed, &signature)`.
    pub fn verify_internal(&self, m: &[u8], sig: &[u8; SIG_LEN]) -> bool {
        self.accepts_input(&Input::Framed(m), sig)
    }

    /// Verifies the signature of the hash `mu` of a framed message (Algorithm 8, with mu given):
    /// `key.verify_mu(&mu, &signature)`.
    pub fn verify_mu(&self, mu: &[u8; 64], sig: &[u8; SIG_LEN]) -> bool {
        self.accepts_input(&Input::Mu(mu), sig)
    }

    /// Verifies each signature with its message, under one context: `out[i]` becomes the result of `verify`
    /// for message and signature `i`. The three lists have the same length:
    /// `key.verify_each(&[b"one", b"two"], &signatures, b"context", &mut verdicts)`.
    pub(crate) fn verify_each(
        &self,
        messages: &[&[u8]],
        signatures: &[[u8; SIG_LEN]],
        ctx: &[u8],
        out: &mut [bool],
    ) {
        for i in 0..messages.len() {
            out[i] = self.verify(messages[i], &signatures[i], ctx);
        }
    }
}
