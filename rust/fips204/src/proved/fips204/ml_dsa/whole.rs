// Made by tools/erase of crates/fips204/src/ml_dsa/whole.rt. Change that, not this.
//! Whether a private key is consistent (FIPS 204, Algorithm 6, lines 3 to 6), and half of a pair.

use super::key_generation::write_key_parts;
use crate::proved::fips204::types::{Params, PrivateKey, R0};
use crate::proved::fips204_base::Fault;
use crate::proved::fips204_base::encodings::pk_encode;
use crate::proved::fips204_base::xof::{Xof, hash};

/// Tells whether t0 of a private key is the low part of `A s1 + s2`.
///
/// Errors: `Fault::SamplingLimit` if the matrix of `rho` reaches its limit.
pub(crate) fn is_whole<const K: usize, const L: usize, H, G: Xof>(
    p: &Params,
    sk: &PrivateKey<K, L, H, G>,
) -> Result<bool, Fault> {
    let mut t0 = [R0; K];
    write_key_parts::<K, L, G>(p, &sk.rho, &sk.s1, &sk.s2, &mut [R0; K], &mut t0)?;
    Ok(sk.t0 == t0)
}

/// Tells whether a private key and the public key derived from it are a pair: whether the private key is consistent,
/// and its `tr` is the hash of the bytes of that public key.
///
/// Errors: `Fault::SamplingLimit` if the matrix of `rho` reaches its limit.
///
/// `PK_LEN` is the length of the parameter set's public keys.
pub(crate) fn is_pair<const K: usize, const L: usize, const PK_LEN: usize, H: Xof, G: Xof>(
    p: &Params,
    sk: &PrivateKey<K, L, H, G>,
) -> Result<bool, Fault> {
    let mut t1 = [R0; K];
    let mut t0 = [R0; K];
    write_key_parts::<K, L, G>(p, &sk.rho, &sk.s1, &sk.s2, &mut t1, &mut t0)?;
    // tr = H(pkEncode(rho, t1))
    let pk: [u8; PK_LEN] = pk_encode(&sk.rho, &t1);
    let tr = hash::<H, 64>(&[pk.as_slice()]);
    let whole = sk.t0 == t0;
    let own = sk.tr == tr;
    Ok(whole && own)
}
