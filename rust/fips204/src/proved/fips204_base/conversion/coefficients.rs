// Made by tools/erase of crates/fips204_base/src/conversion/coefficients.rt. Change that, not this.
//! Coefficients of sampled polynomials from bytes.

use crate::proved::fips204_base::Q;

/// `CoeffFromThreeBytes` (Algorithm 14): the number of the three bytes, lowest first, without the
/// top bit of the last. `None` from `q` on.
pub fn coeff_from_three_bytes(bytes: [u8; 3]) -> Option<i32> {
    let [low, middle, high] = bytes;
    // z = 2^16 b2 + 2^8 b1 + b0, where b2 has lost its top bit
    let value = low as u32 + 256 * middle as u32 + 65536 * (high % 128) as u32;
    core::hint::select_unpredictable(value < Q as u32, Some(value as i32), None)
}

/// `CoeffFromHalfByte` (Algorithm 15): the coefficient in `[-eta, eta]` of a half byte `b`, which is below 16; `eta`
/// is 2 or 4. `None` if `b` is 15 at `eta` 2, and if it is above 8 at `eta` 4.
#[inline(always)]
pub fn coeff_from_half_byte(eta: i32, b: u8) -> Option<i32> {
    if eta == 2 {
        core::hint::select_unpredictable(b < 15, Some(2 - (b % 5) as i32), None)
    } else {
        core::hint::select_unpredictable(b < 9, Some(4 - b as i32), None)
    }
}
