// Made by tools/erase of crates/fips204_base/src/maps.rt. Change that, not this.
//! Steps over the coefficients of polynomials and of vectors, each by one closure, as new values or in
//! place. Internal: serves the crate `fips204` alone.
//!
//! The form for vectors also states the whole result: if the closure's result at each place is that of
//! a function of the place, the vector is the one of this function.

use crate::proved::fips204_base::types::R;

/// The 256 numbers that `f` gives for those of `w`.
#[inline(always)]
pub fn map<F: Fn(i32) -> i32>(w: &[i32; 256], f: F) -> [i32; 256] {
    let mut out = *w;
    write_map(&mut out, f);
    out
}

/// Changes each of the 256 numbers to `f` of it.
#[inline(always)]
pub fn write_map<F: Fn(i32) -> i32>(w: &mut [i32; 256], f: F) {
    for n in 0..256 {
        w[n] = f(w[n]);
    }
}

/// Changes each of the 256 numbers of `v` to `f` of it and that of `w` at the same place.
#[inline(always)]
pub fn write_zip<F: Fn(i32, i32) -> i32>(v: &mut [i32; 256], w: &[i32; 256], f: F) {
    for n in 0..256 {
        v[n] = f(v[n], w[n]);
    }
}

/// The vector whose coefficients are `f` of those of `v`.
#[inline(always)]
pub fn map_vector<const K: usize, F: Fn(i32) -> i32>(v: &[R; K], f: F) -> [R; K] {
    let mut out = *v;
    write_map_vector(&mut out, f);
    out
}

/// The vector whose coefficients are `f` of those of `v` and `w` at the same place.
#[inline(always)]
pub fn zip_vectors<const K: usize, F: Fn(i32, i32) -> i32>(v: &[R; K], w: &[R; K], f: F) -> [R; K] {
    let mut out = *v;
    write_zip_vectors(&mut out, w, f);
    out
}

/// Changes each coefficient of `v` to `f` of it.
#[inline(always)]
pub fn write_map_vector<const K: usize, F: Fn(i32) -> i32>(v: &mut [R; K], f: F) {
    for r in 0..K {
        write_map(&mut v[r].0, &f);
    }
}

/// Changes each coefficient of `v` to `f` of it and that of `w` at the same place.
#[inline(always)]
pub fn write_zip_vectors<const K: usize, F: Fn(i32, i32) -> i32>(v: &mut [R; K], w: &[R; K], f: F) {
    for r in 0..K {
        write_zip(&mut v[r].0, &w[r].0, &f);
    }
}
