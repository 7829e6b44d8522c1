// Made by tools/erase of crates/fips204/src/ml_dsa/decoding.rt. Change that, not this.
//! Keys from their bytes (FIPS 204, Algorithms 23 and 25).

use crate::proved::fips204::types::{Params, PrivateKey, PublicKey, R0};
use crate::proved::fips204_base::Fault;
use crate::proved::fips204_base::encodings::{write_private_key_parts, write_public_key_parts};
use crate::proved::fips204_base::xof::{Xof, hash};
use core::marker::PhantomData;

/// Decodes a public key and computes `tr`, the first 64 bytes of `H` over its bytes (FIPS 204, Algorithm 23,
/// and line 6 of Algorithm 8). Every array of `32 + 320 K` bytes is a public key.
pub fn expand_public<const K: usize, const L: usize, const PK_LEN: usize, H: Xof, G>(
    pk: &[u8; PK_LEN],
) -> PublicKey<K, L, H, G> {
    let mut key = PublicKey {
        rho: [0; 32],
        tr: hash::<H, 64>(&[pk.as_slice()]),
        t1: [R0; K],
        streams: PhantomData,
    };
    key.rho = *write_public_key_parts(pk, &mut key.t1);
    key
}

/// Decodes a private key (Algorithm 25). `K` and `L` are those of the parameter set, and `SK_LEN` is the length of its
/// private keys.
///
/// Errors: `Fault::KeyRange` if a field of s1 or s2 is above `2 eta`.
pub fn expand_private<const K: usize, const L: usize, const SK_LEN: usize, H, G>(
    p: &Params,
    sk: &[u8; SK_LEN],
) -> Result<PrivateKey<K, L, H, G>, Fault> {
    let mut key = PrivateKey {
        rho: [0; 32],
        cap_k: [0; 32],
        tr: [0; 64],
        s1: [R0; L],
        s2: [R0; K],
        t0: [R0; K],
        streams: PhantomData,
    };
    match write_private_key_parts(p.eta, sk, &mut key.s1, &mut key.s2, &mut key.t0) {
        Err(fault) => return Err(fault),
        Ok((rho, cap_k, tr)) => {
            key.rho = *rho;
            key.cap_k = *cap_k;
            key.tr = *tr;
        }
    }
    Ok(key)
}
