// Made by tools/erase of crates/fips204_base/src/helpers.rt. Change that, not this.
//! Helpers on numbers and polynomials.

pub mod count;
pub mod norm;
pub mod reduce;
pub mod residue;
pub mod vector;
pub mod zeta_table;

use crate::proved::fips204_base::types::R;
pub use count::Count;
pub use norm::infinity_norm;
pub use reduce::{
    center_mod, difference, full_reduce32, mont_reduce, partial_reduce32, partial_reduce64,
};
pub use residue::Residue;
pub use vector::{add_vector_ntt, mat_vec_mul, to_mont};
pub use zeta_table::ZETA_TABLE_MONT;

/// The number of binary digits of `x`, for `x` of at least 1.
pub fn bit_length(x: i32) -> usize {
    (32 - (x as u32).leading_zeros()) as usize
}

/// Whether every coefficient is in `[-lo, hi]`, for `lo` and `hi` that are not negative. Reads all of them, since
/// how many pass the test may be secret.
pub fn is_in_range(w: &R, lo: i32, hi: i32) -> bool {
    let mut inside = true;
    for x in &w.0 {
        inside &= (-lo <= *x) & (*x <= hi);
    }
    inside
}
