// Made by tools/erase of crates/fips204_base/src/helpers/vector.rt. Change that, not this.
//! Vectors of polynomials and of transforms.

use crate::proved::fips204_base::helpers::reduce::{partial_reduce64, reduce_sum, wide_product};
use crate::proved::fips204_base::maps::{map, zip_vectors};
use crate::proved::fips204_base::types::{R, T, T0};

/// The sums of two vectors, polynomial by polynomial and without a reduction, for coefficients of an
/// absolute value of at most `2^30 - 1` (FIPS 204, Algorithm 46, over whole numbers).
pub fn add_vector_ntt<const K: usize>(v: &[R; K], w: &[R; K]) -> [R; K] {
    zip_vectors(
        v,
        w,
        |x, y| { x + y },
    )
}

/// The Montgomery form of a vector of transforms: each value times `2^32` modulo `q`, below `q` in
/// absolute value, for values of an absolute value of at most 67000000.
pub fn to_mont<const L: usize>(v: &[T; L]) -> [T; L] {
    let mut out = [T0; L];
    for i in 0..L {
        out[i] = T(map(&v[i].0, value_to_mont));
    }
    out
}

/// The Montgomery form of a value.
#[inline(always)]
pub(crate) fn value_to_mont(x: i32) -> i32 {
    partial_reduce64(i64::from(x) * 4294967296)
}

/// The product of a matrix with a vector of transforms, value by value (FIPS 204, Algorithm 48): the
/// sums of the products modulo `q`, below `q` in absolute value. The values of the matrix and of the vector are from
/// `1 - q` to `q - 1`, and `L` is at most 7.
pub fn mat_vec_mul<const K: usize, const L: usize>(a: &[[T; L]; K], u: &[T; L]) -> [T; K] {
    let mut out = [T0; K];
    for i in 0..K {
        write_row_sums(&a[i], u, &mut out[i].0);
    }
    out
}

crate::levels::with_sse42_and_avx2! {
    /// Writes the sums of the products of a row of the matrix with the vector, value by value.
    ///
    /// Not inlined, so that the compiler still knows that `out` is apart from both.
    #[inline(never)]
    pub(crate) fn write_row_sums<const L: usize>(row: &[T; L], u: &[T; L], out: &mut [i32; 256]) {
        for j in 0..256 {
            out[j] = place_sum(row, u, j);
        }
    }
}

/// The sum at one place, modulo `q` and below `q` in absolute value.
#[inline(always)]
fn place_sum<const L: usize>(row: &[T; L], u: &[T; L], j: usize) -> i32 {
    let mut sum = 0;
    for k in 0..L {
        sum += wide_product(row[k].0[j], u[k].0[j]);
    }
    reduce_sum(sum)
}
