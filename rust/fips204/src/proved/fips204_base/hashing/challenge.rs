// Made by tools/erase of crates/fips204_base/src/hashing/challenge.rt. Change that, not this.
//! The challenge, from the XOF in the place of SHAKE256.

use crate::proved::fips204_base::fault::Fault;
use crate::proved::fips204_base::types::R;
use crate::proved::fips204_base::xof::{Xof, XofReader, sampling_limit};

/// The sign that bit `k` of `bytes` stands for.
fn sign_at(bytes: &[u8; 8], k: usize) -> i32 {
    let bit = (bytes[k / 8] >> (k % 8)) % 2;
    if bit == 1 { -1 } else { 1 }
}

/// `SampleInBall` (Algorithm 29): a polynomial in which `tau` coefficients are 1 or -1 and the others zero.
/// `tau` is from 1 to 64.
///
/// Errors: `SamplingLimit` if rejection sampling reaches its limit: if the bytes after the first eight, a
/// quarter as many as the output has, give fewer than `tau` places.
pub fn sample_in_ball<H: Xof>(tau: i32, rho: &[u8]) -> Result<R, Fault> {
    let first = 256 - tau as usize;
    // ctx = H.Absorb(rho); s = H.Squeeze(ctx, 8)
    let mut reader = H::open(&[rho]);
    let mut signs = [0u8; 8];
    reader.read(&mut signs);
    let mut c = [0i32; 256];
    // i from 256 - tau to 255
    let mut i = first;
    let limit = sampling_limit::<H>();
    for _byte in 0..limit {
        // j = H.Squeeze(ctx, 1), rejected where j > i
        let mut byte = [0u8; 1];
        reader.read(&mut byte);
        let pick = byte[0] as usize;
        if pick <= i {
            // c[i] = c[j]; c[j] = (-1)^h[i + tau - 256]
            c[i] = c[pick];
            c[pick] = sign_at(&signs, i - first);
            i += 1;
            if i == 256 {
                return Ok(R(c));
            }
        }
    }
    Err(Fault::SamplingLimit)
}
