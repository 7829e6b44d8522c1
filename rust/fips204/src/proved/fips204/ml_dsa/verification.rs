// Made by tools/erase of crates/fips204/src/ml_dsa/verification.rt. Change that, not this.
//! Verifying a signature (FIPS 204, Algorithm 8).

use super::commitment_hash::write_commitment_hash;
use super::matrix_bytes::{check_matrix, write_read_product};
use super::signing::has_norm_below;
use crate::proved::fips204::types::{Params, PreparedPublicKey, PublicKey, R, R0};
use crate::proved::fips204_base::D;
use crate::proved::fips204_base::encodings::write_signature_parts;
use crate::proved::fips204_base::hashing::sample_in_ball;
use crate::proved::fips204_base::high_low::use_hint;
use crate::proved::fips204_base::maps::{map_vector, write_zip_vectors};
use crate::proved::fips204_base::product::{Factor, Transforms, write_sampled_product};
use crate::proved::fips204_base::xof::Xof;

/// `ML-DSA.Verify_internal` (Algorithm 8) from `mu`: returns true if and only if the signature is accepted.
///
/// `K`, `L` and `SIG_LEN` are those of the parameter set.
pub fn verify_internal<const K: usize, const L: usize, const SIG_LEN: usize, H: Xof, G: Xof>(
    p: &Params,
    pk: &PublicKey<K, L, H, G>,
    mu: &[u8; 64],
    sig: &[u8; SIG_LEN],
) -> bool {
    let mut z = [R0; L];
    let mut h = [R0; K];
    let Some(parts) = open_signature::<K, L, H>(p, sig, &mut z, &mut h) else {
        return false;
    };
    let (c_tilde, c) = parts;
    // NTT(c), NTT(z)
    let mut az = Transforms::zeros();
    let c_hat = az.write_transforms_and_factor(&z, &c);
    // A = ExpandA(rho), A z
    match write_sampled_product::<K, L, G>(&pk.rho, &mut az) {
        Err(_) => false,
        Ok(()) => is_committed_by::<K, H>(p, mu, c_tilde, &h, &c_hat, &mut az, &pk.t1),
    }
}

/// `verify_internal` with the matrix of a prepared key.
pub(crate) fn verify_prepared<const K: usize, const L: usize, H: Xof>(
    p: &Params,
    pk: &PreparedPublicKey<K, L, H>,
    mu: &[u8; 64],
    sig: &[u8],
) -> bool {
    let mut z = [R0; L];
    let mut h = [R0; K];
    let Some(parts) = open_signature::<K, L, H>(p, sig, &mut z, &mut h) else {
        return false;
    };
    let (c_tilde, c) = parts;
    // NTT(c), A z
    let mut az = Transforms::zeros();
    let c_hat = az.write_transforms_and_factor(&z, &c);
    az.multiply_by(&pk.a_hat);
    is_committed::<K, H>(p, mu, c_tilde, &h, &c_hat, &mut az, &pk.t1_hat)
}

/// `verify_prepared` with the matrix that has these bytes, or `None` if a value is `q` or more. The matrix is read
/// row by row.
pub(crate) fn verify_by_bytes<const K: usize, const L: usize, H: Xof>(
    p: &Params,
    t1: &[R; K],
    matrix: &[u8],
    mu: &[u8; 64],
    sig: &[u8],
) -> Option<bool> {
    let mut z = [R0; L];
    let mut h = [R0; K];
    let Some(parts) = open_signature::<K, L, H>(p, sig, &mut z, &mut h) else {
        check_matrix::<K, L>(matrix)?;
        return Some(false);
    };
    let (c_tilde, c) = parts;
    // NTT(c), A z
    let mut az = Transforms::zeros();
    let c_hat = az.write_transforms_and_factor(&z, &c);
    write_read_product::<K, L>(matrix, &mut az)?;
    Some(is_committed_by::<K, H>(p, mu, c_tilde, &h, &c_hat, &mut az, t1))
}

/// `is_committed` with `t1` itself, whose transforms are in the stack only here.
#[inline(never)]
fn is_committed_by<const K: usize, H: Xof>(
    p: &Params,
    mu: &[u8; 64],
    c_tilde: &[u8],
    h: &[R; K],
    c_hat: &Factor,
    az: &mut Transforms,
    t1: &[R; K],
) -> bool {
    // NTT(t1 2^d)
    let mut t1_hat = Transforms::zeros();
    write_shifted_transforms(t1, &mut t1_hat);
    is_committed::<K, H>(p, mu, c_tilde, h, c_hat, az, &t1_hat)
}

/// Whether `c_tilde` commits to `mu` and `w1' = UseHint(h, A z - c t1 2^d)` (lines 9 to 13). Uses `A z` up.
///
/// `c_hat` and `t1_hat` are what `c` and `t1 2^d` are multiplied as. Coefficients of `h` are 0 or 1, and `K` is that of
/// the parameter set.
///
/// Not inlined, so that its rows are not in the stack while `t1 2^d` is transformed.
#[inline(never)]
fn is_committed<const K: usize, H: Xof>(
    p: &Params,
    mu: &[u8; 64],
    c_tilde: &[u8],
    h: &[R; K],
    c_hat: &Factor,
    az: &mut Transforms,
    t1_hat: &Transforms,
) -> bool {
    // w'_approx = A z - c t1 2^d
    az.subtract_multiple(c_hat, t1_hat);
    let mut w = [R0; K];
    az.write_plain(&mut w);
    // w1' = UseHint(h, w'_approx)
    write_hinted(p, h, &mut w);
    // c_tilde = H(mu || w1Encode(w1'))
    let mut room = [0u8; 64];
    let recomputed = &mut room[..p.c_tilde_len()];
    write_commitment_hash::<K, H>(p, mu, &w, recomputed);
    *c_tilde == *recomputed
}

/// Writes the vectors `z` and `h` that a signature opens to (lines 2 to 8), and returns its `c_tilde` and challenge, or
/// `None` if its last bytes spell no hint, the norm of `z` is not below gamma1 - beta, or the challenge passes its
/// limit. Coefficients of `z` and of the challenge are below `q` in absolute value.
///
/// Not inlined, so that what decoding needs leaves the stack before the parts are used.
#[inline(never)]
fn open_signature<'a, const K: usize, const L: usize, H: Xof>(
    p: &Params,
    sig: &'a [u8],
    z: &mut [R; L],
    h: &mut [R; K],
) -> Option<(&'a [u8], R)> {
    // (c_tilde, z, h) = sigDecode(sigma)
    let c_tilde = write_signature_parts(p.gamma1, p.omega, p.c_tilde_len(), sig, z, h)?;
    // ||z|| < gamma1 - beta
    if !has_norm_below(z, p.z_bound()) {
        return None;
    }
    // c = SampleInBall(c_tilde)
    match sample_in_ball::<H>(p.tau, c_tilde) {
        Err(_) => None,
        Ok(c) => Some((c_tilde, c)),
    }
}

crate::levels::with_avx2! {
    /// Writes `w1' = UseHint(h, w)` (line 10) over `w`.
    ///
    /// Coefficients of `w` are below `q` in absolute value, those of `h` 0 or 1. `K` is that of the parameter set.
    fn write_hinted<const K: usize>(p: &Params, h: &[R; K], w: &mut [R; K]) {
        let gamma2 = p.gamma2;
        write_zip_vectors(
            w,
            h,
            |w, h| { use_hint(gamma2, h, w) },
        );
    }
}

/// Writes the transforms of `t1 2^d`.
///
/// Not inlined, so that `t1 2^d` itself leaves the stack before they are used.
#[inline(never)]
pub(crate) fn write_shifted_transforms<const K: usize>(t1: &[R; K], out: &mut Transforms) {
    out.write_transforms(&t1_shifted(t1));
}

/// `t1 2^d`, with coefficients from 0 to `q - 1`.
fn t1_shifted<const K: usize>(t1: &[R; K]) -> [R; K] {
    map_vector(
        t1,
        |x| { x << D },
    )
}
