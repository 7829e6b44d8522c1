// Made by tools/erase of crates/fips204/src/keys/prepared/by_bytes.rt. Change that, not this.
//! Preparing keys, signing and verifying over the bytes of prepared keys. These calls read the matrix from the bytes, row by
//! row, so they need no more stack than the same calls of a plain key.

use crate::proved::fips204::input::Input;
use crate::proved::fips204::ml_dsa::{self, check_matrix, read_matrix, write_matrix};
use crate::proved::fips204::sets::{HasSet, KeySizes, Matrix, Set, SignatureSizes};
use crate::proved::fips204::traits::SerDes;
use crate::proved::fips204::types::{
    KeyTransforms, PreparedPrivateKey, PreparedPublicKey, PrivateKey, PublicKey, R0, T0,
};
use crate::proved::fips204_base::Fault;
use crate::proved::fips204_base::encodings::{pk_encode, sk_encode, write_public_key_parts};
use crate::proved::fips204_base::hashing::write_expanded_a;
use crate::proved::fips204_base::xof::Xof;

impl<
    S,
    const K: usize,
    const L: usize,
    const PK_LEN: usize,
    const SK_LEN: usize,
    H,
    G: Xof,
> PublicKey<K, L, H, G>
where
    Matrix<K, L>: HasSet<Set = S>,
    S: Set<PublicKey = [u8; PK_LEN], PrivateKey = [u8; SK_LEN]> + KeySizes<K, L, PK_LEN, SK_LEN>,
{
    /// Writes the bytes of the prepared key, which `prepare` makes.
    ///
    /// Errors: `Fault::SamplingLimit` if rejection sampling of the matrix reaches its limit; nothing is written then.
    #[inline(never)]
    pub(crate) fn write_prepared(&self, out: &mut [u8]) -> Result<(), Fault> {
        let mut a_hat = [[T0; L]; K];
        write_expanded_a::<K, L, G>(&self.rho, &mut a_hat)?;
        let (key, rest) = out.split_at_mut(PK_LEN);
        let (tr, matrix) = rest.split_at_mut(64);
        let encoded: [u8; PK_LEN] = pk_encode(&self.rho, &self.t1);
        key.copy_from_slice(&encoded);
        tr.copy_from_slice(&self.tr);
        write_matrix(&a_hat, matrix);
        Ok(())
    }
}

impl<
    S,
    const K: usize,
    const L: usize,
    const PK_LEN: usize,
    const SK_LEN: usize,
    H,
    G: Xof,
> PrivateKey<K, L, H, G>
where
    Matrix<K, L>: HasSet<Set = S>,
    S: Set<PublicKey = [u8; PK_LEN], PrivateKey = [u8; SK_LEN]> + KeySizes<K, L, PK_LEN, SK_LEN>,
{
    /// Writes the bytes of the prepared key, which `prepare` makes.
    ///
    /// Errors: `Fault::SamplingLimit` if rejection sampling of the matrix reaches its limit; nothing is written then.
    #[inline(never)]
    pub(crate) fn write_prepared(&self, out: &mut [u8]) -> Result<(), Fault> {
        let mut a_hat = [[T0; L]; K];
        write_expanded_a::<K, L, G>(&self.rho, &mut a_hat)?;
        let (key, matrix) = out.split_at_mut(SK_LEN);
        let encoded: [u8; SK_LEN] = sk_encode(
            S::params().eta,
            &self.rho,
            &self.cap_k,
            &self.tr,
            &self.s1,
            &self.s2,
            &self.t0,
        );
        key.copy_from_slice(&encoded);
        write_matrix(&a_hat, matrix);
        Ok(())
    }
}

impl<
    S,
    const K: usize,
    const L: usize,
    const SIG_LEN: usize,
    const PK_LEN: usize,
    const SK_LEN: usize,
    H: Xof,
> PreparedPublicKey<K, L, H>
where
    Matrix<K, L>: HasSet<Set = S>,
    S: Set<Signature = [u8; SIG_LEN], PublicKey = [u8; PK_LEN], PrivateKey = [u8; SK_LEN]>,
    S: SignatureSizes<K, L, SIG_LEN> + KeySizes<K, L, PK_LEN, SK_LEN>,
{
    /// Whether the prepared key that has these bytes accepts the signature of an input, or `None` if none has them:
    /// what `accepts_input` of the key that `read` makes returns.
    pub(crate) fn accepts_by_bytes(
        bytes: &[u8],
        input: &Input<'_>,
        signature: &[u8; SIG_LEN],
    ) -> Option<bool> {
        let (key, rest) = bytes.split_at(PK_LEN);
        let (tr, matrix) = rest.split_at(64);
        let mut t1 = [R0; K];
        write_public_key_parts(key, &mut t1);
        match ml_dsa::mu_of::<H>(tr.first_chunk::<64>().unwrap(), input) {
            Err(_) => {
                check_matrix::<K, L>(matrix)?;
                Some(false)
            }
            Ok(mu) => ml_dsa::verify_by_bytes::<K, L, H>(&S::params(), &t1, matrix, &mu, signature),
        }
    }
}

impl<
    S,
    const K: usize,
    const L: usize,
    const SIG_LEN: usize,
    const PK_LEN: usize,
    const SK_LEN: usize,
    H: Xof,
> PreparedPrivateKey<K, L, H>
where
    Matrix<K, L>: HasSet<Set = S>,
    S: Set<Signature = [u8; SIG_LEN], PublicKey = [u8; PK_LEN], PrivateKey = [u8; SK_LEN]>,
    S: SignatureSizes<K, L, SIG_LEN> + KeySizes<K, L, PK_LEN, SK_LEN>,
{
    /// Signs an input with the prepared key that has these bytes and the random bytes `seed`, or returns `None` if none
    /// has them; writes what `sign_input` of the key that `read` makes returns. After `None` and after an error
    /// `signature` is as it was.
    pub(crate) fn write_signature_by_bytes(
        bytes: &[u8],
        seed: &[u8; 32],
        input: &Input<'_>,
        signature: &mut [u8; SIG_LEN],
    ) -> Option<Result<(), Fault>> {
        let (key, matrix) = bytes.split_at(SK_LEN);
        let encoded = key.first_chunk::<SK_LEN>().unwrap();
        match &PrivateKey::<K, L, H, ()>::try_from_bytes(*encoded) {
            Err(_) => None,
            Ok(plain) => Self::write_with_matrix(plain, matrix, seed, input, signature),
        }
    }

    /// Writes the signature of an input with the matrix that has these bytes, or returns `None` if a value is `q` or
    /// more.
    ///
    /// Not inlined, so that the matrix is in the stack only while the key signs.
    #[inline(never)]
    fn write_with_matrix(
        plain: &PrivateKey<K, L, H, ()>,
        matrix: &[u8],
        seed: &[u8; 32],
        input: &Input<'_>,
        signature: &mut [u8; SIG_LEN],
    ) -> Option<Result<(), Fault>> {
        let mut a_hat = [[T0; L]; K];
        read_matrix(matrix, &mut a_hat)?;
        let mut transforms = KeyTransforms::zeros();
        plain.write_transforms(&mut transforms);
        let key = ml_dsa::SigningKey {
            key: plain,
            a_hat: &a_hat,
            transforms: &transforms,
        };
        Some(key.write_signature(&S::params(), input, seed, signature))
    }
}
