// Made by tools/erase of crates/fips204/src/ml_dsa/key_generation.rt. Change that, not this.
//! Making keys (FIPS 204, Algorithms 1 and 6).

use crate::proved::fips204::sets::{HasSet, KeySizes, Matrix, Set};
use crate::proved::fips204::traits::{CryptoRngCore, draw};
use crate::proved::fips204::types::{KG, Params, PrivateKey, PublicKey, R, R0, T};
use crate::proved::fips204_base::Fault;
use crate::proved::fips204_base::encodings::{pk_encode, sk_encode};
use crate::proved::fips204_base::hashing::write_expanded_s;
use crate::proved::fips204_base::helpers::full_reduce32;
use crate::proved::fips204_base::high_low::write_power2round;
use crate::proved::fips204_base::maps::write_zip_vectors;
use crate::proved::fips204_base::product::{Transforms, write_matrix_product, write_sampled_product};
use crate::proved::fips204_base::xof::{Xof, hash};
use core::marker::PhantomData;

/// `ML-DSA.KeyGen_internal` (Algorithm 6): the key pair of the seed `xi`.
///
/// Errors: `Fault::SamplingLimit` if a sampler reaches its limit.
///
/// `K` and `L` are those of the parameter set, and `PK_LEN` is the length of its public keys.
pub fn key_gen_internal<const K: usize, const L: usize, const PK_LEN: usize, H: Xof, G: Xof>(
    p: &Params,
    xi: &[u8; 32],
) -> Result<(PublicKey<K, L, H, G>, PrivateKey<K, L, H, G>), Fault> {
    // both keys, of which each part is written in its place
    let mut public = PublicKey {
        rho: [0; 32],
        tr: [0; 64],
        t1: [R0; K],
        streams: PhantomData,
    };
    let mut private = PrivateKey {
        rho: [0; 32],
        cap_k: [0; 32],
        tr: [0; 64],
        s1: [R0; L],
        s2: [R0; K],
        t0: [R0; K],
        streams: PhantomData,
    };
    let (rho, cap_k) = write_vectors::<K, L, H, G>(
        p,
        xi,
        &mut private.s1,
        &mut private.s2,
        &mut public.t1,
        &mut private.t0,
    )?;
    public.rho = rho;
    private.rho = rho;
    private.cap_k = cap_k;
    // tr = H(pkEncode(rho, t1))
    let pk: [u8; PK_LEN] = pk_encode(&rho, &public.t1);
    public.tr = hash::<H, 64>(&[pk.as_slice()]);
    private.tr = public.tr;
    Ok((public, private))
}

impl<
    S,
    const K: usize,
    const L: usize,
    const PK_LEN: usize,
    const SK_LEN: usize,
    H: Xof,
    G: Xof,
> KG<K, L, H, G>
where
    Matrix<K, L>: HasSet<Set = S>,
    S: Set<PublicKey = [u8; PK_LEN], PrivateKey = [u8; SK_LEN]> + KeySizes<K, L, PK_LEN, SK_LEN>,
{
    /// Makes the key pair of a seed (Algorithm 6), and writes the bytes of both keys (Algorithms 22 and 24): what
    /// `into_bytes` returns for the keys of `keygen_from_seed`, in less stack, since no key is a value here.
    ///
    /// Errors: `Fault::SamplingLimit` if rejection sampling reaches its limit; nothing is written then.
    #[inline(never)]
    pub(crate) fn write_pair(
        xi: &[u8; 32],
        public_key: &mut [u8],
        private_key: &mut [u8],
    ) -> Result<(), Fault> {
        let p = S::params();
        let (mut s1, mut s2) = ([R0; L], [R0; K]);
        let (mut t1, mut t0) = ([R0; K], [R0; K]);
        let (rho, cap_k) = write_vectors::<K, L, H, G>(&p, xi, &mut s1, &mut s2, &mut t1, &mut t0)?;
        // pk = pkEncode(rho, t1)
        let public: [u8; PK_LEN] = pk_encode(&rho, &t1);
        public_key.copy_from_slice(&public);
        // tr = H(pk)
        let tr = hash::<H, 64>(&[public.as_slice()]);
        // sk = skEncode(rho, K, tr, s1, s2, t0)
        let private: [u8; SK_LEN] = sk_encode(p.eta, &rho, &cap_k, &tr, &s1, &s2, &t0);
        private_key.copy_from_slice(&private);
        Ok(())
    }
}

/// Writes the vectors of the keys of the seed `xi`, and returns their seeds rho and K (Algorithm 6, lines 1 to 6).
/// `K` and `L` are those of the parameter set.
///
/// Errors: `Fault::SamplingLimit` if a sampler reaches its limit.
fn write_vectors<const K: usize, const L: usize, H: Xof, G: Xof>(
    p: &Params,
    xi: &[u8; 32],
    s1: &mut [R; L],
    s2: &mut [R; K],
    t1: &mut [R; K],
    t0: &mut [R; K],
) -> Result<([u8; 32], [u8; 32]), Fault> {
    // (rho, rho', K) = H(xi || k || l)
    let seeds = hash::<H, 128>(&[xi.as_slice(), &[p.k as u8], &[p.l as u8]]);
    let rho: [u8; 32] = seed_at(&seeds, 0);
    let rho_prime: [u8; 64] = seed_at(&seeds, 32);
    // (s1, s2) = ExpandS(rho')
    write_expanded_s::<K, L, H>(p.eta, &rho_prime, s1, s2)?;
    // A = ExpandA(rho), t = A s1 + s2, (t1, t0) = Power2Round(t)
    write_key_parts::<K, L, G>(p, &rho, s1, s2, t1, t0)?;
    Ok((rho, seed_at(&seeds, 96)))
}

/// The `N` bytes from `at` on.
fn seed_at<const N: usize>(bytes: &[u8; 128], at: usize) -> [u8; N] {
    *bytes[at..].first_chunk::<N>().unwrap()
}

/// Writes the high part `t1` and the low part `t0` of `A s1 + s2` (Algorithm 6, lines 3 to 6) for the matrix of
/// `rho`. Coefficients of `s1` and `s2` are in `[-eta, eta]`, and `K` and `L` are those of the parameter set.
///
/// Errors: `Fault::SamplingLimit` if the matrix reaches its limit.
pub(super) fn write_key_parts<const K: usize, const L: usize, G: Xof>(
    p: &Params,
    rho: &[u8; 32],
    s1: &[R; L],
    s2: &[R; K],
    t1: &mut [R; K],
    t0: &mut [R; K],
) -> Result<(), Fault> {
    // A = ExpandA(rho), t = A s1 + s2
    write_key_vector::<K, L, G>(rho, s1, s2, t0)?;
    // (t1, t0) = Power2Round(t)
    write_power2round(t0, t1);
    Ok(())
}

/// Writes the high part of `A s1 + s2` with the matrix at hand. Coefficients of `s1` and `s2` are in `[-eta, eta]`, and
/// `K` and `L` are those of the parameter set.
pub(crate) fn write_high_part<const K: usize, const L: usize>(
    p: &Params,
    a_hat: &[[T; L]; K],
    s1: &[R; L],
    s2: &[R; K],
    t1: &mut [R; K],
) {
    let mut t = [R0; K];
    write_matrix_product(a_hat, s1, &mut t);
    write_sum(&mut t, s2);
    write_power2round(&mut t, t1);
}

/// Writes `t = A s1 + s2` (Algorithm 6, lines 3 and 5) for the matrix of `rho`, with coefficients from 0 to
/// `q - 1`. Those of `s1` and `s2` are below `q` in absolute value, and `K` and `L` are those of a parameter set.
/// Returns `Fault::SamplingLimit` if the matrix passes its limit.
fn write_key_vector<const K: usize, const L: usize, G: Xof>(
    rho: &[u8; 32],
    s1: &[R; L],
    s2: &[R; K],
    t: &mut [R; K],
) -> Result<(), Fault> {
    let mut product = Transforms::zeros();
    product.write_transforms(s1);
    write_sampled_product::<K, L, G>(rho, &mut product)?;
    product.write_plain(t);
    write_sum(t, s2);
    Ok(())
}

crate::levels::with_avx2! {
    /// Adds `v` to `t`, with results from 0 to `q - 1`. Coefficients of both are below `q` in absolute value.
    fn write_sum<const K: usize>(t: &mut [R; K], v: &[R; K]) {
        write_zip_vectors(
            t,
            v,
            |x, y| { full_reduce32(x + y) },
        );
    }
}

/// `ML-DSA.KeyGen` (Algorithm 1): a key pair from 32 bytes of the generator, which is asked once.
///
/// Errors: `Fault::KeyGenRng` if the generator fails; then those of `key_gen_internal`.
pub fn key_gen<
    const K: usize,
    const L: usize,
    const PK_LEN: usize,
    H: Xof,
    G: Xof,
    R: CryptoRngCore,
>(p: &Params, rng: &mut R) -> Result<(PublicKey<K, L, H, G>, PrivateKey<K, L, H, G>), Fault> {
    key_gen_internal::<K, L, PK_LEN, H, G>(p, &draw(rng, Fault::KeyGenRng)?)
}

/// The public key of a private key: its `rho` and `tr`, and the high part of `A s1 + s2`.
///
/// Errors: `Fault::SamplingLimit` if the matrix of `rho` reaches its limit.
pub fn private_to_public_key<const K: usize, const L: usize, H, G: Xof>(
    p: &Params,
    sk: &PrivateKey<K, L, H, G>,
) -> Result<PublicKey<K, L, H, G>, Fault> {
    let mut t1 = [R0; K];
    write_key_parts::<K, L, G>(p, &sk.rho, &sk.s1, &sk.s2, &mut t1, &mut [R0; K])?;
    Ok(PublicKey {
        rho: sk.rho,
        tr: sk.tr,
        t1,
        streams: PhantomData,
    })
}
