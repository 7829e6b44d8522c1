// Made by tools/erase of crates/fips204/src/traits.rt. Change that, not this.
//! Generators of random bytes, and the traits that every parameter set implements: making keys, signing, verifying, and
//! keys as bytes.

use crate::proved::fips204_base::Fault;

/// The error of a generator that returned no bytes.
#[derive(Debug, Clone, Copy, PartialEq, Eq)]
pub struct RngError;

/// A generator of random bytes.
// An implementation states which bytes a call may return, when it may fail, and what state the generator is then in.
pub trait CryptoRngCore: Sized {
    /// Fills `out` with random bytes, or fails.
    fn try_fill_bytes(&mut self, out: &mut [u8]) -> Result<(), RngError>;
}

/// A generator for tests: it returns the same 32 bytes to every request for 32, and fails on any other
/// length, leaving `out` unchanged.
pub struct DummyRng {
    /// The bytes.
    pub bytes: [u8; 32],
}

impl CryptoRngCore for DummyRng {
    fn try_fill_bytes(&mut self, out: &mut [u8]) -> Result<(), RngError> {
        if out.len() != 32 {
            return Err(RngError);
        }
        out.copy_from_slice(&self.bytes);
        Ok(())
    }
}

/// Draws 32 bytes from the generator in a single request. Returns `refusal` if it fails.
pub(crate) fn draw<R: CryptoRngCore>(rng: &mut R, refusal: Fault) -> Result<[u8; 32], Fault> {
    let mut bytes = [0u8; 32];
    match rng.try_fill_bytes(&mut bytes) {
        Ok(()) => Ok(bytes),
        Err(_) => Err(refusal),
    }
}

/// Key generation (FIPS 204, Algorithm 1). The private key of a pair is consistent, the public key is the one that is
/// derived from it, and each is what decoding its bytes returns. So what the private key signs, also after it was
/// stored, is accepted by the public key, also after it was stored.
pub trait KeyGen: Sized {
    /// The public key of a pair.
    type PublicKey: Verifier<Signature = <Self::PrivateKey as Signer>::Signature> + SerDes;

    /// The private key of a pair.
    type PrivateKey: Signer<PublicKey = Self::PublicKey> + SerDes;

    /// Makes a key pair (Algorithm 1) from 32 bytes of the generator, which is asked once.
    ///
    /// Errors: `Fault::KeyGenRng` if the generator fails; then those of `keygen_from_seed`.
    fn try_keygen_with_rng<R: CryptoRngCore>(
        rng: &mut R,
    ) -> Result<(Self::PublicKey, Self::PrivateKey), Fault>;

    /// Makes the key pair of a seed (Algorithm 6).
    ///
    /// Errors: `Fault::SamplingLimit` if rejection sampling reaches its limit.
    fn keygen_from_seed(xi: &[u8; 32]) -> Result<(Self::PublicKey, Self::PrivateKey), Fault>;
}

/// Signing (FIPS 204, Algorithms 2 and 4).
pub trait Signer: Sized {
    /// The byte array of a signature.
    type Signature;

    /// The public key of a pair, which verifies signatures of this type. A generic function over a `Signer` alone
    /// verifies with `K::PublicKey`: it needs no second bound.
    type PublicKey: Verifier<Signature = Self::Signature>;

    /// Signs a message (Algorithm 2) with 32 random bytes of the generator, which is asked once.
    ///
    /// Errors, in this order: `Fault::SignCtx` if `ctx` has more than 255 bytes (the generator is then not
    /// asked); `Fault::SignRng` if the generator fails; then `Fault::SamplingLimit` and
    /// `Fault::TooManyAttempts` as for `try_sign_with_seed`.
    fn try_sign_with_rng<R: CryptoRngCore>(
        &self,
        rng: &mut R,
        message: &[u8],
        ctx: &[u8],
    ) -> Result<Self::Signature, Fault>;

    /// Signs a message (Algorithm 2) with the random bytes `seed`; 32 zeros give the deterministic variant.
    ///
    /// Errors: `Fault::SignCtx` if `ctx` has more than 255 bytes; `Fault::SamplingLimit` if rejection
    /// sampling reaches its limit; `Fault::TooManyAttempts` if all 814 attempts are rejected.
    fn try_sign_with_seed(
        &self,
        seed: &[u8; 32],
        message: &[u8],
        ctx: &[u8],
    ) -> Result<Self::Signature, Fault>;

    /// Signs a digest (Algorithm 4) with 32 random bytes of the generator, which is asked once. `hash_oid` is
    /// the DER object identifier of the hash function.
    ///
    /// Errors, in this order: `Fault::HashCtx` if `ctx` has more than 255 bytes; those of `check_pre_hash`
    /// (in both cases the generator is not asked); `Fault::HashRng` if the generator fails; then
    /// `Fault::SamplingLimit` and `Fault::TooManyAttempts` as for `try_sign_with_seed`.
    fn try_hash_sign_with_rng<R: CryptoRngCore>(
        &self,
        rng: &mut R,
        hash: &[u8],
        ctx: &[u8],
        hash_oid: &[u8],
    ) -> Result<Self::Signature, Fault>;

    /// Signs a digest (Algorithm 4) with the random bytes `seed`.
    ///
    /// Errors, in this order: `Fault::HashCtx` if `ctx` has more than 255 bytes; those of `check_pre_hash`;
    /// then `Fault::SamplingLimit` and `Fault::TooManyAttempts` as for `try_sign_with_seed`.
    fn try_hash_sign_with_seed(
        &self,
        seed: &[u8; 32],
        hash: &[u8],
        ctx: &[u8],
        hash_oid: &[u8],
    ) -> Result<Self::Signature, Fault>;

    /// Computes the public key of the private key: its `rho` and `tr`, with t1 as in Algorithm 6.
    ///
    /// Errors: `Fault::SamplingLimit` if rejection sampling of the matrix reaches its limit.
    fn get_public_key(&self) -> Result<Self::PublicKey, Fault>;

}

/// Verifying (FIPS 204, Algorithms 3 and 5).
pub trait Verifier: Sized {
    /// The byte array of a signature.
    type Signature;

    /// Verifies the signature of a message (Algorithm 3). Returns false if `ctx` has more than 255 bytes.
    fn verify(&self, message: &[u8], signature: &Self::Signature, ctx: &[u8]) -> bool;

    /// Verifies the signature of a digest (Algorithm 5). Returns false if `ctx` has more than 255 bytes, or
    /// if `check_pre_hash` returns an error.
    fn hash_verify(
        &self,
        hash: &[u8],
        signature: &Self::Signature,
        ctx: &[u8],
        hash_oid: &[u8],
    ) -> bool;

}

/// A signature scheme: every signature that a pair makes verifies under the public key of that pair.
pub trait Scheme: Sized {
    /// The public key of a pair.
    type Public;

    /// The private key of a pair.
    type Private;

    /// A signature.
    type Signature;

    /// Makes the key pair of a seed. Errors as for `KeyGen::keygen_from_seed`.
    fn keygen(xi: &[u8; 32]) -> Result<(Self::Public, Self::Private), Fault>;

    /// Signs a message under a context with the random bytes `rnd`. Errors as for `Signer::try_sign_with_seed`.
    fn sign(
        sk: &Self::Private,
        rnd: &[u8; 32],
        message: &[u8],
        ctx: &[u8],
    ) -> Result<Self::Signature, Fault>;

    /// Verifies the signature of a message under a context. Returns true for every signature that `sign`
    /// returned for the same message and context with the private key of the pair that `keygen` returned.
    fn verify(pk: &Self::Public, message: &[u8], signature: &Self::Signature, ctx: &[u8]) -> bool;
}

/// Makes a key pair, signs with it and verifies the signature. Returns true or the first error, and never false. Where
/// it returns true, the public key accepts the signature.
pub fn pairwise_check<S: Scheme>(
    xi: &[u8; 32],
    rnd: &[u8; 32],
    message: &[u8],
    ctx: &[u8],
) -> Result<bool, Fault> {
    let (pk, sk) = S::keygen(xi)?;
    let signature = S::sign(&sk, rnd, message, ctx)?;
    Ok(S::verify(&pk, message, &signature, ctx))
}

/// Keys that are encoded as byte arrays of a fixed length and decoded from them (FIPS 204, Algorithms 22 to 25).
pub trait SerDes: Sized {
    /// The byte array.
    type ByteArray;

    /// Encodes the key (Algorithms 22 and 24).
    fn into_bytes(self) -> Self::ByteArray;

    /// Decodes a key (Algorithms 23 and 25). Encoding the result returns the same bytes.
    ///
    /// Errors: `Fault::KeyRange` if the bytes encode no private key. A public key has no error.
    fn try_from_bytes(ba: Self::ByteArray) -> Result<Self, Fault>;

}
