// Made by tools/erase of crates/fips204_base/src/encodings/signature.rt. Change that, not this.
//! Signatures as bytes.

use super::vectors::{polynomial_size, write_packed_vector, write_unpacked_vector};
use crate::proved::fips204_base::conversion::{hint_bit_pack, write_unpacked_hint};
use crate::proved::fips204_base::high_low::high_count;
use crate::proved::fips204_base::types::{R, R0};

/// `sigDecode` (Algorithm 27): the parts of a signature, `c_tilde`, `z` and the hint, or `None` if
/// its last `omega + K` bytes encode no hint. Coefficients of `z` are in `[1 - gamma1, gamma1]`.
///
/// `gamma1` is 131072 or 524288, `omega` is at least 1, `omega + K` is below 256, and `SIG_LEN` is the length of the
/// parts: `LAMBDA_DIV4`, 576 (640 at the larger `gamma1`) for each of the `L` polynomials of `z`, and `omega + K`.
pub fn sig_decode<const K: usize, const L: usize, const LAMBDA_DIV4: usize, const SIG_LEN: usize>(
    gamma1: i32,
    omega: i32,
    sigma: &[u8; SIG_LEN],
) -> Option<([u8; LAMBDA_DIV4], [R; L], [R; K])> {
    let mut z = [R0; L];
    let mut h = [R0; K];
    let c_tilde = write_signature_parts(gamma1, omega, LAMBDA_DIV4, sigma, &mut z, &mut h)?;
    Some((*c_tilde.first_chunk::<LAMBDA_DIV4>().unwrap(), z, h))
}

/// `sig_decode` of a `c_tilde` of `size` bytes, with `z` and the hint written into the caller's places; if there are
/// none, part of them may be written. Internal: serves the crate `fips204` alone.
pub fn write_signature_parts<'a, const K: usize, const L: usize>(
    gamma1: i32,
    omega: i32,
    size: usize,
    sigma: &'a [u8],
    z: &mut [R; L],
    h: &mut [R; K],
) -> Option<&'a [u8]> {
    // line 1: (c_tilde, x, y) = sigma
    let (c_tilde, rest) = sigma.split_at(size);
    let (response, hint) = rest.split_at(polynomial_size(gamma1 - 1, gamma1) * L);
    // line 5: h = HintBitUnpack(y)
    write_unpacked_hint(omega, hint, h)?;
    // lines 2 to 4: z[i] = BitUnpack(x_i, gamma1 - 1, gamma1)
    write_unpacked_vector(response, gamma1 - 1, gamma1, z);
    Some(c_tilde)
}

/// `sigEncode` (Algorithm 26): encodes a signature from its parts: `c_tilde`, then `z` with coefficients in
/// `[1 - gamma1, gamma1]`, then the hint `h`, whose coefficients are 0 or 1, with at most `omega` ones in all.
///
/// `gamma1` is 131072 or 524288, `omega` is at least 1, `omega + K` is below 256, and `SIG_LEN` is as for
/// `sig_decode`.
pub fn sig_encode<const K: usize, const L: usize, const LAMBDA_DIV4: usize, const SIG_LEN: usize>(
    gamma1: i32,
    omega: i32,
    c_tilde: &[u8; LAMBDA_DIV4],
    z: &[R; L],
    h: &[R; K],
) -> [u8; SIG_LEN] {
    let mut sigma = [0u8; SIG_LEN];
    write_encoded_signature(gamma1, omega, c_tilde, z, h, &mut sigma);
    sigma
}

/// `sig_encode` into the caller's bytes, of a `c_tilde` of any size. Internal: serves the crate `fips204` alone.
pub fn write_encoded_signature<const K: usize, const L: usize>(
    gamma1: i32,
    omega: i32,
    c_tilde: &[u8],
    z: &[R; L],
    h: &[R; K],
    sigma: &mut [u8],
) {
    let (challenge, rest) = sigma.split_at_mut(c_tilde.len());
    let (response, hint) = rest.split_at_mut(polynomial_size(gamma1 - 1, gamma1) * L);
    // line 1: sigma = c_tilde
    challenge.copy_from_slice(c_tilde);
    // lines 2 to 4: sigma = sigma || BitPack(z[i], gamma1 - 1, gamma1)
    write_packed_vector(z, gamma1 - 1, gamma1, response);
    // line 5: sigma = sigma || HintBitPack(h)
    hint_bit_pack(omega, h, hint);
}

/// `w1Encode` (Algorithm 28): writes the polynomials of `w1`, whose coefficients are high parts: in
/// `[0, 43]` at `gamma2` 95232, and in `[0, 15]` at `gamma2` 261888.
///
/// `out` has exactly 192 bytes for each polynomial at `gamma2` 95232, and 128 at `gamma2` 261888.
pub fn w1_encode<const K: usize>(gamma2: i32, w1: &[R; K], out: &mut [u8]) {
    // w1_tilde = w1_tilde || SimpleBitPack(w1[i], (q - 1) / (2 gamma2) - 1)
    write_packed_vector(w1, 0, high_count(gamma2 as u32) - 1, out);
}
