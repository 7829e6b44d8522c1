// Made by tools/erase of crates/fips204/src/keys/prepared/bytes.rt. Change that, not this.
//! Prepared keys as bytes: those of the plain key, the hash `tr` behind a public one, and the matrix, row by row, each
//! of its values a word of 32 bits, the lowest byte first. FIPS 204 has no such encoding.

use crate::proved::fips204::ml_dsa::{self, read_matrix, write_matrix};
use crate::proved::fips204::sets::{HasSet, KeySizes, Matrix, Set};
use crate::proved::fips204::types::{KeyTransforms, PreparedPrivateKey, PreparedPublicKey, R0, T0};
use crate::proved::fips204_base::encodings::{pk_encode, sk_encode, write_public_key_parts};
use crate::proved::fips204_base::product::Transforms;
use core::marker::PhantomData;

impl<
    S,
    const K: usize,
    const L: usize,
    const PK_LEN: usize,
    const SK_LEN: usize,
    H,
> PreparedPublicKey<K, L, H>
where
    Matrix<K, L>: HasSet<Set = S>,
    S: Set<PublicKey = [u8; PK_LEN], PrivateKey = [u8; SK_LEN]> + KeySizes<K, L, PK_LEN, SK_LEN>,
{
    /// Writes the key as bytes, from which `read` makes it again: those of the public key, 64 of its hash `tr`, and
    /// 1024 for each entry of the matrix.
    pub(crate) fn write(&self, out: &mut [u8]) {
        let (key, rest) = out.split_at_mut(PK_LEN);
        let (tr, matrix) = rest.split_at_mut(64);
        let encoded: [u8; PK_LEN] = pk_encode(&self.rho, &self.t1);
        key.copy_from_slice(&encoded);
        tr.copy_from_slice(&self.tr);
        write_matrix(&self.a_hat, matrix);
    }

    /// The prepared key that has these bytes, or `None` if none has: if a value of the matrix is `q` or more. Whether
    /// the matrix is that of the key's seed is not checked: other bytes than `write` has written may accept anything.
    #[inline(never)]
    pub(crate) fn read(bytes: &[u8]) -> Option<PreparedPublicKey<K, L, H>> {
        let (key, rest) = bytes.split_at(PK_LEN);
        let (tr, matrix) = rest.split_at(64);
        let mut t1 = [R0; K];
        let rho = write_public_key_parts(key, &mut t1);
        let mut pk = PreparedPublicKey {
            rho: *rho,
            tr: *tr.first_chunk::<64>().unwrap(),
            t1,
            a_hat: [[T0; L]; K],
            t1_hat: Transforms::zeros(),
            stream: PhantomData,
        };
        read_matrix(matrix, &mut pk.a_hat)?;
        ml_dsa::write_shifted_transforms(&t1, &mut pk.t1_hat);
        Some(pk)
    }
}

impl<
    S,
    const K: usize,
    const L: usize,
    const PK_LEN: usize,
    const SK_LEN: usize,
    H,
> PreparedPrivateKey<K, L, H>
where
    Matrix<K, L>: HasSet<Set = S>,
    S: Set<PublicKey = [u8; PK_LEN], PrivateKey = [u8; SK_LEN]> + KeySizes<K, L, PK_LEN, SK_LEN>,
{
    /// Writes the key as bytes, from which `read` makes it again: those of the private key, and 1024 for each entry of
    /// the matrix.
    pub(crate) fn write(&self, out: &mut [u8]) {
        let (key, matrix) = out.split_at_mut(SK_LEN);
        let plain = &self.key;
        let encoded: [u8; SK_LEN] = sk_encode(
            S::params().eta,
            &plain.rho,
            &plain.cap_k,
            &plain.tr,
            &plain.s1,
            &plain.s2,
            &plain.t0,
        );
        key.copy_from_slice(&encoded);
        write_matrix(&self.a_hat, matrix);
    }

    /// The prepared key that has these bytes, or `None` if none has: if a coefficient of s1 or s2 is out of range, or a
    /// value of the matrix is `q` or more. Whether the matrix is that of the key's seed is not checked: with other
    /// bytes than `write` has written, signatures may tell the key.
    #[inline(never)]
    pub(crate) fn read(bytes: &[u8]) -> Option<PreparedPrivateKey<K, L, H>> {
        let (key, matrix) = bytes.split_at(SK_LEN);
        let encoded = key.first_chunk::<SK_LEN>().unwrap();
        let plain = match ml_dsa::expand_private::<K, L, SK_LEN, H, ()>(&S::params(), encoded) {
            Err(_) => return None,
            Ok(plain) => plain,
        };
        let mut sk = PreparedPrivateKey {
            key: plain,
            a_hat: [[T0; L]; K],
            transforms: KeyTransforms::zeros(),
        };
        read_matrix(matrix, &mut sk.a_hat)?;
        sk.key.write_transforms(&mut sk.transforms);
        Some(sk)
    }
}
