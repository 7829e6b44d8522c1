// Made by tools/erase of crates/fips204_base/src/high_low.rt. Change that, not this.
//! Rounding and hints (FIPS 204, Algorithms 35 to 40).

use crate::proved::fips204_base::D;
use crate::proved::fips204_base::helpers::full_reduce32;
use crate::proved::fips204_base::maps::{write_map_vector, write_zip_vectors};
use crate::proved::fips204_base::types::{R, R0, Zq};

/// `Power2Round` (FIPS 204, Algorithm 35) of each coefficient, from 0 to `q - 1`: the high parts,
/// from 0 to 1023, and the low parts, from -4095 to 4096.
pub fn power2round<const K: usize>(r: &[R; K]) -> ([R; K], [R; K]) {
    let mut high = [R0; K];
    let mut low = *r;
    write_power2round(&mut low, &mut high);
    (high, low)
}

/// `power2round` of each coefficient of `r`, in place: the high parts are written into `high`, and the low parts
/// over `r`. Internal: serves the crate `fips204` alone.
pub fn write_power2round<const K: usize>(r: &mut [R; K], high: &mut [R; K]) {
    write_zip_vectors(
        high,
        r,
        |_, x| { power2round_coefficient(x).0 },
    );
    write_map_vector(
        r,
        |x| { power2round_coefficient(x).1 },
    );
}

/// `power2round` of one coefficient.
fn power2round_coefficient(r: Zq) -> (Zq, Zq) {
    // r0 = r mod± 2^d, r1 = (r - r0) / 2^d
    let high = (r + 4095) >> D;
    (high, r - (high << D))
}

/// `Decompose` (FIPS 204, Algorithm 36) of `r` modulo `q`, as the high and the low bits, where
/// `gamma2` is 95232 or 261888 and `r` is below `2^31 - 2^22` in absolute value. The high bits are
/// from 0 to 43 or to 15, the low bits from `-gamma2` to `gamma2`.
#[inline(always)]
pub fn decompose(gamma2: i32, r: Zq) -> (Zq, Zq) {
    // r+ = r mod q, r0 = r+ mod± (2 gamma2)
    let residue = full_reduce32(r);
    let quotient = nearest_quotient(gamma2 as u32, residue as u32) as i32;
    let multiple = quotient * (2 * gamma2);
    let low = residue - multiple;
    if multiple == 8380416 {
        // r+ - r0 = q - 1: r1 = 0, r0 = r0 - 1
        (0, low - 1)
    } else {
        // r1 = (r+ - r0) / (2 gamma2)
        (quotient, low)
    }
}

/// The quotient of `r` by `2 gamma2` that is nearest, the lower one of two. The reciprocals are of
/// `2 gamma2 / 128`: `1488 * 11275` is `2^24 - 16`, and `4092 * 1025` is `2^22 - 4`.
#[inline(always)]
fn nearest_quotient(gamma2: u32, r: u32) -> u32 {
    let blocks = (r + 127) >> 7;
    if gamma2 == 95232 {
        (blocks * 11275 + (1 << 23)) >> 24
    } else {
        (blocks * 1025 + (1 << 21)) >> 22
    }
}

/// `HighBits` (FIPS 204, Algorithm 37), under the conditions of `decompose`.
#[inline(always)]
pub fn high_bits(gamma2: i32, r: Zq) -> Zq {
    decompose(gamma2, r).0
}

/// `LowBits` (FIPS 204, Algorithm 38), under the conditions of `decompose`.
#[inline(always)]
pub fn low_bits(gamma2: i32, r: Zq) -> Zq {
    decompose(gamma2, r).1
}

/// `MakeHint` (FIPS 204, Algorithm 39): whether the high bits of `r + z` differ from those of `r`,
/// where `gamma2` is 95232 or 261888 and `z` and `r` are at most 1071644671 in absolute value.
#[inline(always)]
pub fn make_hint(gamma2: i32, z: Zq, r: Zq) -> bool {
    // r1 = HighBits(r), v1 = HighBits(r + z), r1 != v1
    high_bits(gamma2, r) != high_bits(gamma2, r + z)
}

/// `UseHint` (FIPS 204, Algorithm 40): the high bits of `r`, which a hint moves by one, up if the low bits are
/// above 0 and else down, and round at the ends. `h` is 0 or 1, and the conditions of `decompose` hold.
#[inline(always)]
pub fn use_hint(gamma2: i32, h: Zq, r: Zq) -> Zq {
    // (r1, r0) = Decompose(r), m = (q - 1) / (2 gamma2)
    let (high, low) = decompose(gamma2, r);
    if h == 0 {
        return high;
    }
    let last = high_count(gamma2 as u32) - 1;
    if low > 0 {
        // h = 1 and r0 > 0: (r1 + 1) mod m
        if high == last { 0 } else { high + 1 }
    } else {
        // h = 1 and r0 <= 0: (r1 - 1) mod m
        if high == 0 { last } else { high - 1 }
    }
}

/// The number of values of high bits: `(q - 1) / (2 gamma2)`.
#[inline(always)]
pub(crate) fn high_count(gamma2: u32) -> Zq {
    if gamma2 == 95232 { 44 } else { 16 }
}
