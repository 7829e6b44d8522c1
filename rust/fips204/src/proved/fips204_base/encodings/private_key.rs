// Made by tools/erase of crates/fips204_base/src/encodings/private_key.rt. Change that, not this.
//! Private keys as bytes.

use super::vectors::{
    polynomial_size, write_packed_vector, write_unpacked_short_vector, write_unpacked_vector,
};
use crate::proved::fips204_base::fault::Fault;
use crate::proved::fips204_base::types::{R, R0};

/// `skDecode` (Algorithm 25): the parts of a private key: rho, K, tr, s1, s2 and t0.
///
/// `eta` is 2 or 4, and `SK_LEN` is 128, plus 96 (128 at `eta` 4) for each of the `L + K` polynomials of s1
/// and s2, plus 416 for each of the `K` polynomials of t0.
///
/// Errors: `Fault::KeyRange` if a field of s1 or s2 is above `2 eta`.
///
pub fn sk_decode<const K: usize, const L: usize, const SK_LEN: usize>(
    eta: i32,
    sk: &[u8; SK_LEN],
) -> Result<(&[u8; 32], &[u8; 32], &[u8; 64], [R; L], [R; K], [R; K]), Fault> {
    let mut s1 = [R0; L];
    let mut s2 = [R0; K];
    let mut t0 = [R0; K];
    let (rho, key, tr) = write_private_key_parts(eta, sk, &mut s1, &mut s2, &mut t0)?;
    Ok((rho, key, tr, s1, s2, t0))
}

/// `sk_decode` with the vectors written into the caller's places; after an error, part of them may be written. Internal:
/// serves the crate `fips204` alone.
///
/// Not inlined, so that what decoding needs leaves the stack before the parts are used.
#[inline(never)]
pub fn write_private_key_parts<'a, const K: usize, const L: usize>(
    eta: i32,
    sk: &'a [u8],
    s1: &mut [R; L],
    s2: &mut [R; K],
    t0: &mut [R; K],
) -> Result<(&'a [u8; 32], &'a [u8; 32], &'a [u8; 64]), Fault> {
    // line 1: (rho, K, tr, y, z, w) = sk
    let (seeds, vectors) = sk.split_at(128);
    let size = polynomial_size(eta, eta);
    let (first, rest) = vectors.split_at(size * L);
    let (second, low) = rest.split_at(size * K);
    // lines 2 to 10: s1[i], s2[i] = BitUnpack(_, eta, eta), t0[i] = BitUnpack(w_i, 2^(d - 1) - 1, 2^(d - 1))
    write_unpacked_short_vector(first, eta, s1).ok_or(Fault::KeyRange)?;
    write_unpacked_short_vector(second, eta, s2).ok_or(Fault::KeyRange)?;
    write_unpacked_vector(low, 4095, 4096, t0);
    Ok((part(seeds, 0), part(seeds, 32), part(seeds, 64)))
}

/// `skEncode` (Algorithm 24): encodes a private key from its parts: rho, K, tr, then s1 and s2 with
/// coefficients in `[-eta, eta]`, then t0 with coefficients in `[-4095, 4096]`.
///
/// `eta` is 2 or 4, and `SK_LEN` is as for `sk_decode`.
pub fn sk_encode<const K: usize, const L: usize, const SK_LEN: usize>(
    eta: i32,
    rho: &[u8; 32],
    k: &[u8; 32],
    tr: &[u8; 64],
    s1: &[R; L],
    s2: &[R; K],
    t0: &[R; K],
) -> [u8; SK_LEN] {
    let size = polynomial_size(eta, eta);
    let mut sk = [0u8; SK_LEN];
    let (matrix_seed, rest) = sk.split_at_mut(32);
    let (mask_seed, rest) = rest.split_at_mut(32);
    let (hash, rest) = rest.split_at_mut(64);
    let (first, rest) = rest.split_at_mut(size * L);
    let (second, low) = rest.split_at_mut(size * K);
    // line 1: sk = rho || K || tr
    matrix_seed.copy_from_slice(rho);
    mask_seed.copy_from_slice(k);
    hash.copy_from_slice(tr);
    // lines 2 to 4: sk = sk || BitPack(s1[i], eta, eta)
    write_packed_vector(s1, eta, eta, first);
    // lines 5 to 7: sk = sk || BitPack(s2[i], eta, eta)
    write_packed_vector(s2, eta, eta, second);
    // lines 8 to 10: sk = sk || BitPack(t0[i], 2^(d - 1) - 1, 2^(d - 1))
    write_packed_vector(t0, 4095, 4096, low);
    sk
}

/// The `N` bytes from a place on.
fn part<const N: usize>(bytes: &[u8], at: usize) -> &[u8; N] {
    bytes[at..].first_chunk::<N>().unwrap()
}
