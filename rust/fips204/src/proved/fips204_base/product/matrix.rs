// Made by tools/erase of crates/fips204_base/src/product/matrix.rt. Change that, not this.
//! The matrix times a vector: the matrix as it stands, or row by row from its seed.

use super::{Transforms, lanes_of, write_at};
use crate::proved::fips204_base::fault::Fault;
use crate::proved::fips204_base::hashing::write_next_row;
use crate::proved::fips204_base::helpers::vector::write_row_sums;
use crate::proved::fips204_base::lanes::Lanes;
use crate::proved::fips204_base::types::{R, R0, T, T0};
use crate::proved::fips204_base::xof::Xof;

/// Writes `A v`, with coefficients from 0 to `q - 1`; the matrix is given by its transforms. Coefficients of `v` are
/// below `q` in absolute value.
///
/// Not inlined, so that its lanes don't stay in the caller's frame.
#[inline(never)]
pub fn write_matrix_product<const K: usize, const L: usize>(
    a: &[[T; L]; K],
    v: &[R; L],
    out: &mut [R; K],
) {
    let mut w = Transforms::zeros();
    w.write_transforms(v);
    w.multiply_over(a, out);
    w.write_plain(out);
}

/// Writes `A v` over `v`, for the matrix of `rho`, with one row of it at a time. `K` and `L` are those of a parameter set.
/// Internal: serves the crate `fips204` alone.
///
/// Errors: `SamplingLimit` if an entry reaches its limit; `v` may then have been written in part.
///
/// Not inlined, so that the rows leave the stack before the product is used.
#[inline(never)]
pub fn write_sampled_product<const K: usize, const L: usize, G: Xof>(
    rho: &[u8; 32],
    v: &mut Transforms,
) -> Result<(), Fault> {
    let mut row = [T0; L];
    let mut ahead = [T0; 4];
    let mut values = Values::zeros();
    v.write_values(&mut values);
    for r in 0..K {
        write_next_row::<K, L, G>(rho, r, &mut ahead, &mut row)?;
        v.write_row_product(r, &row, &values);
    }
    Ok(())
}

/// The transforms of a vector of `L` polynomials, one after the other, as rows of the matrix are multiplied with them.
///
/// Contracts see these transforms.
pub struct Values<const L: usize> {
    transforms: [T; L],
}

impl<const L: usize> Values<L> {
    /// Transforms of zeros.
    pub fn zeros() -> Values<L> {
        Values {
            transforms: [T0; L],
        }
    }
}

impl Transforms {
    /// Becomes `A v` (Algorithm 48) where it was `v`; the matrix is given by its transforms.
    #[inline(never)]
    pub fn multiply_by<const K: usize, const L: usize>(&mut self, a: &[[T; L]; K]) {
        let mut rows = [R0; K];
        self.multiply_over(a, &mut rows);
    }

    /// The same, with room for the rows of `A v`, which are put into the lanes in one pass.
    #[inline(never)]
    fn multiply_over<const K: usize, const L: usize>(&mut self, a: &[[T; L]; K], rows: &mut [R; K]) {
        let mut v = [T0; L];
        write_values(&self.values, &mut v);
        for r in 0..K {
            write_row_sums(&a[r], &v, &mut rows[r].0);
        }
        for n in 0..256usize {
            self.values[n] = lanes_of(rows, n);
        }
    }

    /// Polynomial `r` becomes the product of a row of the matrix with the vector of these transforms; the others stay.
    pub fn write_row_product<const L: usize>(&mut self, r: usize, row: &[T; L], v: &Values<L>) {
        let mut sums = [0; 256];
        write_row_sums(row, &v.transforms, &mut sums);
        for n in 0..256usize {
            self.values[n] = self.values[n].with_lane(r, sums[n]);
        }
    }

    /// Writes the transforms, one after the other.
    pub fn write_values<const L: usize>(&self, out: &mut Values<L>) {
        write_values(&self.values, &mut out.transforms);
    }
}

/// Writes the transforms that are in the lanes.
fn write_values<const L: usize>(lanes: &[Lanes; 256], out: &mut [T; L]) {
    for n in 0..256usize {
        write_values_at(lanes[n], n, out);
    }
}

/// Writes value `n` of each transform.
#[inline(always)]
fn write_values_at<const L: usize>(x: Lanes, n: usize, out: &mut [T; L]) {
    let entries = x.to_array();
    for k in 0..L {
        write_at(&mut out[k].0, n, entries[k]);
    }
}
