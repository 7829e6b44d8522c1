// Made by tools/erase of crates/fips204_base/src/ntt.rt. Change that, not this.
//! The number-theoretic transform and its inverse, as a network of butterflies.

use crate::proved::fips204_base::helpers::Count;
pub use crate::proved::fips204_base::helpers::Residue;
pub use crate::proved::fips204_base::lanes::Lanes;

/// The transform (FIPS 204, Algorithm 41) of each row of 256 values, lane by lane. The lanes have an
/// absolute value of at most `q - 1`, before and after. Each row raises the meter by 1024
/// butterflies, for which it needs room.
pub fn ntt<V: Residue, const KL: usize>(w: &[[V; 256]; KL], meter: &mut V::Meter) -> [[V; 256]; KL] {
    let mut out = *w;
    for row in 0..KL {
        write_ntt(&mut out[row], meter);
    }
    out
}

/// The inverse transform (FIPS 204, Algorithm 42) of each row of 256 values, lane by lane, from 0 to
/// `q - 1`. The lanes have an absolute value of at most `q - 1` before. Each row raises the meter by
/// 1024 butterflies, for which it needs room.
pub fn inv_ntt<V: Residue, const KL: usize>(
    w_hat: &[[V; 256]; KL],
    meter: &mut V::Meter,
) -> [[V; 256]; KL] {
    let mut out = *w_hat;
    for row in 0..KL {
        write_inv_ntt(&mut out[row], meter);
    }
    out
}

crate::levels::with_avx2! {
    /// `write_ntt` in lanes, with a meter that nobody reads: as it is not written to, the compiler leaves it out.
    #[inline(never)]
    pub(crate) fn write_lanes_ntt(w: &mut [Lanes; 256]) {
        write_ntt(w, &mut Count::new());
    }
}

crate::levels::with_sse42_and_avx2! {
    /// `write_inv_ntt` in lanes, as `write_lanes_ntt`.
    #[inline(never)]
    pub(crate) fn write_lanes_inv_ntt(w: &mut [Lanes; 256]) {
        write_inv_ntt(w, &mut Count::new());
    }
}

/// The transform of one row, in place: eight layers, and a last reduction.
#[inline(always)]
pub(crate) fn write_ntt<V: Residue>(w: &mut [V; 256], meter: &mut V::Meter) {
    let mut count = 1;
    let mut len = 128;
    for s in 0..8usize {
        write_layer::<V, Forwards>(w, count, len, meter);
        count *= 2;
        len /= 2;
    }
    for i in 0..256 {
        w[i] = w[i].reduce();
    }
}

/// The butterflies of a transform, or those of its inverse.
trait Butterfly: Sized {
    /// The power of zeta of block `b` of `count`.
    fn power(count: usize, b: usize) -> usize;

    /// One butterfly.
    fn apply<V: Residue>(a: V, b: V, m: usize, meter: &mut V::Meter) -> (V, V);
}

/// Those of the transform: `a + zeta b` and `a - zeta b`.
struct Forwards;

impl Butterfly for Forwards {
    #[inline(always)]
    fn power(count: usize, b: usize) -> usize {
        count + b
    }

    #[inline(always)]
    fn apply<V: Residue>(a: V, b: V, m: usize, meter: &mut V::Meter) -> (V, V) {
        // t = zeta w_hat[j + len], w_hat[j + len] = w_hat[j] - t, w_hat[j] = w_hat[j] + t
        let t = b.mul_zeta(m, meter);
        let x = a.add(t, meter);
        let y = a.sub(t, meter);
        (x, y)
    }
}

/// Those of the inverse transform: `a + b` and `-zeta (a - b)`.
struct Backwards;

impl Butterfly for Backwards {
    #[inline(always)]
    fn power(count: usize, b: usize) -> usize {
        2 * count - 1 - b
    }

    #[inline(always)]
    fn apply<V: Residue>(a: V, b: V, m: usize, meter: &mut V::Meter) -> (V, V) {
        // t = w[j], w[j] = t + w[j + len], w[j + len] = -zeta (t - w[j + len])
        let x = a.add(b, meter);
        let t = a.sub(b, meter);
        let y = t.mul_neg_zeta(m, meter);
        (x, y)
    }
}

/// One layer: `count` blocks of `2 * len` values. The layer whose blocks have one pair is compiled
/// with its constants.
#[inline(always)]
fn write_layer<V: Residue, B: Butterfly>(
    w: &mut [V; 256],
    count: usize,
    len: usize,
    meter: &mut V::Meter,
) {
    match len {
        1 => write_blocks::<V, B>(w, 128, 1, meter),
        _ => write_blocks::<V, B>(w, count, len, meter),
    }
}

/// The blocks of one layer.
#[inline(always)]
fn write_blocks<V: Residue, B: Butterfly>(
    w: &mut [V; 256],
    count: usize,
    len: usize,
    meter: &mut V::Meter,
) {
    let mut start = 0;
    for b in 0..count {
        write_block::<V, B>(w, start, len, B::power(count, b), meter);
        start += 2 * len;
    }
}

/// The butterflies of one block, in place.
#[inline(always)]
fn write_block<V: Residue, B: Butterfly>(
    w: &mut [V; 256],
    start: usize,
    len: usize,
    m: usize,
    meter: &mut V::Meter,
) {
    let (_, rest) = w.split_at_mut(start);
    let (front, rest) = rest.split_at_mut(len);
    let back = &mut rest[..len];
    for k in 0..len {
        let (x, y) = B::apply(front[k], back[k], m, meter);
        front[k] = x;
        back[k] = y;
    }
}

/// The inverse transform of one row, in place: eight layers backwards, and the last factor. The sums
/// of the layers reach `256 (q - 1)`, which fits `i32`.
#[inline(always)]
pub(crate) fn write_inv_ntt<V: Residue>(w: &mut [V; 256], meter: &mut V::Meter) {
    let mut count = 128;
    let mut len = 1;
    for s in 0..8usize {
        write_layer::<V, Backwards>(w, count, len, meter);
        count /= 2;
        len *= 2;
    }
    // f = 256^-1 mod q = 8347681, w[j] = f w[j] mod q
    for i in 0..256 {
        w[i] = w[i].finish();
    }
}
