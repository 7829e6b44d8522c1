// Made by tools/erase of crates/fips204_base/src/helpers/norm.rt. Change that, not this.
//! The norm of a vector.

use crate::proved::fips204_base::helpers::reduce::center_mod;
use crate::proved::fips204_base::types::R;

crate::levels::with_avx2! {
    /// The norm of a vector of at least one polynomial: the largest absolute value of a coefficient that
    /// is centred modulo `q`. Coefficients are below `2^31 - 2^22` in absolute value.
    pub fn infinity_norm<const ROW: usize>(w: &[R; ROW]) -> i32 {
        let mut most = 0;
        for polynomial in w {
            most = most.max(norm(polynomial));
        }
        most
    }
}

/// The norm of a polynomial.
#[inline(always)]
fn norm(w: &R) -> i32 {
    let mut most = 0;
    for x in &w.0 {
        most = most.max(center_mod(*x).abs());
    }
    most
}
