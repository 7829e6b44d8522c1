// Made by tools/erase of crates/fips204_base/src/helpers/residue.rt. Change that, not this.
//! The values that the butterflies work on.

use crate::proved::fips204_base::Q;
use crate::proved::fips204_base::helpers::count::Count;
use crate::proved::fips204_base::helpers::reduce::{mont_reduce, partial_reduce32, wide_product};
use crate::proved::fips204_base::helpers::zeta_table::zeta_mont;

/// A value that the butterflies work on, seen as a row of lanes: `lanes` has `width` entries. Each operation
/// works on every lane. Products, sums and differences raise the meter, whose two counts stay below `2^64`:
/// the caller shows that there is room. Nothing here can make, copy or read a meter.
pub trait Residue: Copy {
    /// The meter, which counts the steps.
    type Meter;

    /// The sum, which fits `i32` in each lane.
    fn add(self, other: Self, meter: &mut Self::Meter) -> Self;

    /// The difference, which fits `i32` in each lane.
    fn sub(self, other: Self, meter: &mut Self::Meter) -> Self;

    /// The product with `zeta^BitRev8(m)` modulo `q`, below `q` in absolute value, for `m` below
    /// 256.
    fn mul_zeta(self, m: usize, meter: &mut Self::Meter) -> Self;

    /// The product with `-zeta^BitRev8(m)` modulo `q`, below `q` in absolute value, for `m` below
    /// 256.
    fn mul_neg_zeta(self, m: usize, meter: &mut Self::Meter) -> Self;

    /// A value congruent and below `q` in absolute value, for one below `2^31 - 2^22` in absolute value.
    fn reduce(self) -> Self;

    /// The product with 8347681, the inverse of 256, modulo `q`, from 0 to `q - 1`.
    fn finish(self) -> Self;
}

impl Residue for i32 {
    type Meter = Count;

    #[inline(always)]
    fn add(self, other: i32, meter: &mut Count) -> i32 {
        meter.sums += 1;
        self + other
    }

    #[inline(always)]
    fn sub(self, other: i32, meter: &mut Count) -> i32 {
        meter.sums += 1;
        self - other
    }

    #[inline(always)]
    fn mul_zeta(self, m: usize, meter: &mut Count) -> i32 {
        meter.products += 1;
        mont_product(self, zeta_mont(m))
    }

    #[inline(always)]
    fn mul_neg_zeta(self, m: usize, meter: &mut Count) -> i32 {
        meter.products += 1;
        mont_product(self, -zeta_mont(m))
    }

    #[inline(always)]
    fn reduce(self) -> i32 {
        partial_reduce32(self)
    }

    #[inline(always)]
    fn finish(self) -> i32 {
        // 8347681 * 2^32 is 16382 modulo q
        let near = mont_product(self, 16382);
        if near < 0 { near + Q } else { near }
    }
}

/// The product times the inverse of `2^32` modulo `q`, below `q` in absolute value.
#[inline(always)]
fn mont_product(x: i32, factor: i32) -> i32 {
    mont_reduce(wide_product(x, factor))
}
