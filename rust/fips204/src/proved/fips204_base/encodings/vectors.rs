// Made by tools/erase of crates/fips204_base/src/encodings/vectors.rt. Change that, not this.
//! Vectors as bytes, one polynomial after another.

use crate::proved::fips204_base::conversion::{field_width, write_packed_by_range, write_unpacked_by_range};
use crate::proved::fips204_base::helpers::is_in_range;
use crate::proved::fips204_base::types::R;

/// How many bytes a polynomial with coefficients in `[-a, b]` has.
pub fn polynomial_size(a: i32, b: i32) -> usize {
    32 * field_width(a, b) as usize
}

/// Writes the polynomials of `v`, whose coefficients are in `[-a, b]`.
#[inline(always)]
pub fn write_packed_vector<const N: usize>(v: &[R; N], a: i32, b: i32, out: &mut [u8]) {
    let size = polynomial_size(a, b);
    for i in 0..N {
        let at = size * i;
        write_packed_by_range(&v[i], a, b, &mut out[at..at + size]);
    }
}

/// Writes the polynomial whose bytes these are, if every field is that of a coefficient in `[-a, b]`.
#[inline(always)]
fn write_unpacked_polynomial(bytes: &[u8], a: i32, b: i32, w: &mut R) {
    write_unpacked_by_range(bytes, a, b, w).unwrap();
}

/// Writes the vector whose bytes these are, if every field is that of a coefficient in `[-a, b]`.
#[inline(always)]
pub fn write_unpacked_vector<const N: usize>(bytes: &[u8], a: i32, b: i32, v: &mut [R; N]) {
    let size = polynomial_size(a, b);
    for i in 0..N {
        let at = size * i;
        write_unpacked_polynomial(&bytes[at..at + size], a, b, &mut v[i]);
    }
}

/// Writes the polynomial with coefficients in `[-eta, eta]` whose bytes these are, or returns `None` if a field is that
/// of no such coefficient.
fn write_unpacked_short_polynomial(bytes: &[u8], eta: i32, w: &mut R) -> Option<()> {
    write_unpacked_by_range(bytes, eta, eta, w)?;
    if is_in_range(w, eta, eta) {
        Some(())
    } else {
        None
    }
}

/// Writes the vector with coefficients in `[-eta, eta]` whose bytes these are, or returns `None` if a field is that of
/// no such coefficient; then part of it may be written.
pub fn write_unpacked_short_vector<const N: usize>(
    bytes: &[u8],
    eta: i32,
    v: &mut [R; N],
) -> Option<()> {
    let size = polynomial_size(eta, eta);
    for i in 0..N {
        let at = size * i;
        write_unpacked_short_polynomial(&bytes[at..at + size], eta, &mut v[i])?;
    }
    Some(())
}
