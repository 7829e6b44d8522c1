// Made by tools/erase of crates/fips204_shake/src/bytes/calls.rt. Change that, not this.
//! The calls at one parameter set, as a type. A call checks the lengths; the function that it then calls does the work,
//! outside its frame.

use crate::proved::fips204_shake::bytes::refusal::{Buffer, Refusal};
use crate::proved::fips204_shake::bytes::slices::array_of;
use crate::proved::fips204::Input;
use crate::proved::fips204::sets::{HasSet, KeySizes, Matrix, Set, SignatureSizes};
use crate::proved::fips204::traits::{SerDes, Signer, Verifier};
use crate::proved::fips204::types::{KG, PreparedPrivateKey, PreparedPublicKey, PrivateKey, PublicKey};
use crate::proved::fips204::xof::Xof;
use core::marker::PhantomData;

/// ML-DSA (FIPS 204) over bytes at one parameter set: the one whose matrix has `K` rows and `L` columns, over the XOFs `H`
/// and `G` (SHAKE256 and SHAKE128 in the standard), of plain and of prepared keys.
///
/// In contracts `S.set` is the parameter set's row of the standard's tables. The calls make no value of this type.
pub struct MlDsa<const K: usize, const L: usize, H, G>(PhantomData<(H, G)>);

/// The calls of ML-DSA-44.
pub type MlDsa44<H, G> = MlDsa<4, 4, H, G>;

/// The calls of ML-DSA-65.
pub type MlDsa65<H, G> = MlDsa<6, 5, H, G>;

/// The calls of ML-DSA-87.
pub type MlDsa87<H, G> = MlDsa<8, 7, H, G>;

impl<
    S,
    const K: usize,
    const L: usize,
    const SIG_LEN: usize,
    const PK_LEN: usize,
    const SK_LEN: usize,
    H: Xof,
    G: Xof,
> MlDsa<K, L, H, G>
where
    Matrix<K, L>: HasSet<Set = S>,
    S: Set<Signature = [u8; SIG_LEN], PublicKey = [u8; PK_LEN], PrivateKey = [u8; SK_LEN]>,
    S: SignatureSizes<K, L, SIG_LEN> + KeySizes<K, L, PK_LEN, SK_LEN>,
{
    /// Makes the key pair of a seed (Algorithms 6, 22 and 24), and writes the bytes of both keys.
    ///
    /// Errors: the length of `public_key`, then of `private_key`; then `Fault::SamplingLimit` if rejection sampling reaches
    /// its limit.
    pub fn keygen(
        seed: &[u8; 32],
        public_key: &mut [u8],
        private_key: &mut [u8],
    ) -> Result<(), Refusal> {
        if public_key.len() != PK_LEN {
            return Err(Refusal::Length(Buffer::PublicKey));
        }
        if private_key.len() != SK_LEN {
            return Err(Refusal::Length(Buffer::PrivateKey));
        }
        Ok(KG::<K, L, H, G>::write_pair(seed, public_key, private_key)?)
    }

    /// Signs an input from 32 random bytes (Algorithms 2, 4 and 7), and writes the signature; zeros give the deterministic
    /// variant.
    ///
    /// Errors: the length of `private_key`, then of `signature`; then `Fault::KeyRange` if no private key has these bytes;
    /// then those of `PrivateKey::sign_input`.
    pub fn sign(
        private_key: &[u8],
        random: &[u8; 32],
        input: &Input<'_>,
        signature: &mut [u8],
    ) -> Result<(), Refusal> {
        if private_key.len() != SK_LEN {
            return Err(Refusal::Length(Buffer::PrivateKey));
        }
        if signature.len() != SIG_LEN {
            return Err(Refusal::Length(Buffer::Signature));
        }
        Self::write_signature(private_key, random, input, signature)
    }

    #[inline(never)]
    fn write_signature(
        private_key: &[u8],
        random: &[u8; 32],
        input: &Input<'_>,
        signature: &mut [u8],
    ) -> Result<(), Refusal> {
        match &PrivateKey::<K, L, H, G>::try_from_bytes(*array_of(private_key)) {
            Err(fault) => Err(Refusal::Library(*fault)),
            Ok(key) => {
                let signature = <&mut [_; SIG_LEN]>::try_from(&mut *signature).ok().unwrap();
                Ok(key.write_signature(random, input, signature)?)
            }
        }
    }

    /// Tells whether a public key accepts the signature of an input (Algorithms 3, 5 and 8). It accepts none of an input that
    /// signing rejects.
    ///
    /// Errors: the length of `public_key`, then of `signature`.
    pub fn verify(public_key: &[u8], input: &Input<'_>, signature: &[u8]) -> Result<bool, Refusal> {
        if public_key.len() != PK_LEN {
            return Err(Refusal::Length(Buffer::PublicKey));
        }
        if signature.len() != SIG_LEN {
            return Err(Refusal::Length(Buffer::Signature));
        }
        Self::verdict(public_key, input, signature)
    }

    #[inline(never)]
    fn verdict(public_key: &[u8], input: &Input<'_>, signature: &[u8]) -> Result<bool, Refusal> {
        match &PublicKey::<K, L, H, G>::try_from_bytes(*array_of(public_key)) {
            Err(fault) => Err(Refusal::Library(*fault)),
            Ok(key) => Ok(key.accepts_input(input, array_of(signature))),
        }
    }

    /// Computes the public key that belongs to a private one, and writes its bytes.
    ///
    /// Errors: the length of `private_key`, then of `public_key`; then `Fault::KeyRange` if no private key has these bytes;
    /// then those of `Signer::get_public_key`.
    pub fn public_key(private_key: &[u8], public_key: &mut [u8]) -> Result<(), Refusal> {
        if private_key.len() != SK_LEN {
            return Err(Refusal::Length(Buffer::PrivateKey));
        }
        if public_key.len() != PK_LEN {
            return Err(Refusal::Length(Buffer::PublicKey));
        }
        Self::write_public(private_key, public_key)
    }

    #[inline(never)]
    fn write_public(private_key: &[u8], public_key: &mut [u8]) -> Result<(), Refusal> {
        match &PrivateKey::<K, L, H, G>::try_from_bytes(*array_of(private_key)) {
            Err(fault) => Err(Refusal::Library(*fault)),
            Ok(key) => {
                public_key.copy_from_slice(&key.get_public_key()?.into_bytes());
                Ok(())
            }
        }
    }

    /// Does nothing if a private key has these bytes (Algorithm 25).
    ///
    /// Errors: the length of `private_key`; then `Fault::KeyRange` if no private key has these bytes.
    #[inline(never)]
    pub fn check_private_key(private_key: &[u8]) -> Result<(), Refusal> {
        if private_key.len() != SK_LEN {
            return Err(Refusal::Length(Buffer::PrivateKey));
        }
        match &PrivateKey::<K, L, H, G>::try_from_bytes(*array_of(private_key)) {
            Err(fault) => Err(Refusal::Library(*fault)),
            Ok(_) => Ok(()),
        }
    }

    /// Tells whether a private key is consistent: whether its t0 belongs to its s1 and s2.
    ///
    /// Errors: the length of `private_key`; then `Fault::KeyRange` if no private key has these bytes; then those of
    /// `PrivateKey::is_whole`.
    #[inline(never)]
    pub fn is_whole(private_key: &[u8]) -> Result<bool, Refusal> {
        if private_key.len() != SK_LEN {
            return Err(Refusal::Length(Buffer::PrivateKey));
        }
        match &PrivateKey::<K, L, H, G>::try_from_bytes(*array_of(private_key)) {
            Err(fault) => Err(Refusal::Library(*fault)),
            Ok(key) => Ok(key.is_whole()?),
        }
    }

    /// Tells whether a private key and the public key that belongs to it are a pair: whether it is consistent, and its `tr` is the
    /// hash of that key's bytes.
    ///
    /// Errors: the length of `private_key`; then `Fault::KeyRange` if no private key has these bytes; then those of
    /// `PrivateKey::is_pair`.
    #[inline(never)]
    pub fn is_pair(private_key: &[u8]) -> Result<bool, Refusal> {
        if private_key.len() != SK_LEN {
            return Err(Refusal::Length(Buffer::PrivateKey));
        }
        match &PrivateKey::<K, L, H, G>::try_from_bytes(*array_of(private_key)) {
            Err(fault) => Err(Refusal::Library(*fault)),
            Ok(key) => Ok(key.is_pair()?),
        }
    }

    /// How many bytes a prepared public key has.
    fn prepared_public_len() -> usize {
        PK_LEN + 64 + 1024 * L * K
    }

    /// How many bytes a prepared private key has.
    fn prepared_private_len() -> usize {
        SK_LEN + 1024 * L * K
    }

    /// Prepares a public key for many verifications, and writes the bytes of the prepared key: those of the key, of its hash
    /// `tr`, and of its matrix.
    ///
    /// Errors: the length of `public_key`, then of `prepared`; then `Fault::SamplingLimit` if rejection sampling reaches its
    /// limit.
    pub fn prepare_public_key(public_key: &[u8], prepared: &mut [u8]) -> Result<(), Refusal> {
        if public_key.len() != PK_LEN {
            return Err(Refusal::Length(Buffer::PublicKey));
        }
        if prepared.len() != Self::prepared_public_len() {
            return Err(Refusal::Length(Buffer::PreparedPublicKey));
        }
        Self::write_prepared_public(public_key, prepared)
    }

    #[inline(never)]
    fn write_prepared_public(public_key: &[u8], prepared: &mut [u8]) -> Result<(), Refusal> {
        match &PublicKey::<K, L, H, G>::try_from_bytes(*array_of(public_key)) {
            Err(fault) => Err(Refusal::Library(*fault)),
            Ok(key) => Ok(key.write_prepared(prepared)?),
        }
    }

    /// Tells whether a prepared public key accepts the signature of an input. With the bytes that `prepare_public_key` has
    /// written of a key it tells what `verify` tells with that key.
    ///
    /// Errors: the length of `prepared`, then of `signature`; then `Refusal::NotPrepared` if no prepared key has these bytes.
    /// Whether the matrix is that of the key is not checked.
    pub fn verify_prepared(
        prepared: &[u8],
        input: &Input<'_>,
        signature: &[u8],
    ) -> Result<bool, Refusal> {
        if prepared.len() != Self::prepared_public_len() {
            return Err(Refusal::Length(Buffer::PreparedPublicKey));
        }
        if signature.len() != SIG_LEN {
            return Err(Refusal::Length(Buffer::Signature));
        }
        Self::prepared_verdict(prepared, input, signature)
    }

    #[inline(never)]
    fn prepared_verdict(
        prepared: &[u8],
        input: &Input<'_>,
        signature: &[u8],
    ) -> Result<bool, Refusal> {
        match PreparedPublicKey::<K, L, H>::accepts_by_bytes(prepared, input, array_of(signature)) {
            None => Err(Refusal::NotPrepared),
            Some(verdict) => Ok(verdict),
        }
    }

    /// Prepares a private key for many signatures, and writes the bytes of the prepared key: those of the key and of its
    /// matrix.
    ///
    /// Errors: the length of `private_key`, then of `prepared`; then `Fault::KeyRange` if no private key has these bytes; then
    /// `Fault::SamplingLimit` if rejection sampling reaches its limit.
    pub fn prepare_private_key(private_key: &[u8], prepared: &mut [u8]) -> Result<(), Refusal> {
        if private_key.len() != SK_LEN {
            return Err(Refusal::Length(Buffer::PrivateKey));
        }
        if prepared.len() != Self::prepared_private_len() {
            return Err(Refusal::Length(Buffer::PreparedPrivateKey));
        }
        Self::write_prepared_private(private_key, prepared)
    }

    #[inline(never)]
    fn write_prepared_private(private_key: &[u8], prepared: &mut [u8]) -> Result<(), Refusal> {
        match &PrivateKey::<K, L, H, G>::try_from_bytes(*array_of(private_key)) {
            Err(fault) => Err(Refusal::Library(*fault)),
            Ok(key) => Ok(key.write_prepared(prepared)?),
        }
    }

    /// Signs an input with a prepared private key from 32 random bytes, and writes the signature; zeros give the deterministic
    /// variant. With the bytes that `prepare_private_key` has written of a key it writes what `sign` writes with that key.
    ///
    /// Errors: the length of `prepared`, then of `signature`; then `Refusal::NotPrepared` if no prepared key has these bytes;
    /// then those of `PreparedPrivateKey::sign_input`. Whether the matrix is that of the key is not checked.
    pub fn sign_prepared(
        prepared: &[u8],
        random: &[u8; 32],
        input: &Input<'_>,
        signature: &mut [u8],
    ) -> Result<(), Refusal> {
        if prepared.len() != Self::prepared_private_len() {
            return Err(Refusal::Length(Buffer::PreparedPrivateKey));
        }
        if signature.len() != SIG_LEN {
            return Err(Refusal::Length(Buffer::Signature));
        }
        Self::write_prepared_signature(prepared, random, input, signature)
    }

    #[inline(never)]
    fn write_prepared_signature(
        prepared: &[u8],
        random: &[u8; 32],
        input: &Input<'_>,
        signature: &mut [u8],
    ) -> Result<(), Refusal> {
        let signature = <&mut [_; SIG_LEN]>::try_from(&mut *signature).ok().unwrap();
        match PreparedPrivateKey::<K, L, H>::write_signature_by_bytes(
            prepared, random, input, signature,
        ) {
            None => Err(Refusal::NotPrepared),
            Some(Err(fault)) => Err(Refusal::Library(fault)),
            Some(Ok(())) => Ok(()),
        }
    }
}
