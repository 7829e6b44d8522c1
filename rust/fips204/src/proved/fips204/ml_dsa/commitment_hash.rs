// Made by tools/erase of crates/fips204/src/ml_dsa/commitment_hash.rt. Change that, not this.
//! The commitment of a high part (FIPS 204, Algorithm 7, line 15, and Algorithm 8, line 12).

use crate::proved::fips204::types::{Params, R};
use crate::proved::fips204_base::encodings::w1_encode;
use crate::proved::fips204_base::xof::{Xof, XofReader};

/// Writes `c_tilde` of `w1`: the first `lambda / 4` bytes of `H` over `mu` and the bytes of `w1`, whose coefficients
/// are high bits.
pub(crate) fn write_commitment_hash<const K: usize, H: Xof>(
    p: &Params,
    mu: &[u8; 64],
    w1: &[R; K],
    c_tilde: &mut [u8],
) {
    let mut room = [0u8; 1024];
    let bytes = &mut room[..p.w1_len()];
    w1_encode(p.gamma2, w1, bytes);
    let mut reader = H::open(&[mu.as_slice(), bytes]);
    reader.read(c_tilde);
}
