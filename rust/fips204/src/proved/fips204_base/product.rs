// Made by tools/erase of crates/fips204_base/src/product.rt. Change that, not this.
//! Vectors in the NTT domain, a polynomial a lane, and the factors that multiply them. Internal: serves the crate `fips204`
//! alone.

mod matrix;

use crate::proved::fips204_base::helpers::count::Count;
use crate::proved::fips204_base::helpers::vector::value_to_mont;
use crate::proved::fips204_base::lanes::Lanes;
use crate::proved::fips204_base::ntt::{write_lanes_inv_ntt, write_lanes_ntt, write_ntt};
use crate::proved::fips204_base::types::R;
pub use matrix::{Values, write_matrix_product, write_sampled_product};

/// A vector of at most eight polynomials, as their transforms: lane `r` of value `n` is value `n` of the transform of
/// polynomial `r`, and zero if there is no polynomial `r`.
///
/// Contracts see the vector itself: eight polynomials with coefficients from 0 to `q - 1`.
pub struct Transforms {
    values: [Lanes; 256],
}

impl Transforms {
    /// Eight polynomials of zeros.
    #[inline(never)]
    pub fn zeros() -> Transforms {
        Transforms {
            values: [Lanes::from_array([0; 8]); 256],
        }
    }

    crate::levels::with_avx2! {
        write_transforms_for_any write_transforms_for_avx2 write_transforms_for_others
        /// Becomes `v` (Algorithm 41). Coefficients are below `q` in absolute value.
        ///
        /// Not inlined, so that its calls can be counted.
        #[inline(never)]
        pub fn write_transforms<const N: usize>(&mut self, v: &[R; N]) {
            for n in 0..256usize {
                self.values[n] = lanes_of(v, n);
            }
            write_lanes_ntt(&mut self.values);
        }
    }

    crate::levels::with_avx2! {
        write_transforms_and_factor_for_any write_transforms_and_factor_for_avx2 write_transforms_and_factor_for_others
        /// Becomes `v`, as by `write_transforms`, and returns `c` as what vectors are multiplied by. Both take one run of the
        /// network, with `c` in the last lane. Coefficients are below `q` in absolute value.
        #[inline(never)]
        pub fn write_transforms_and_factor<const N: usize>(&mut self, v: &[R; N], c: &R) -> Factor {
            for n in 0..256usize {
                self.values[n] = lanes_of(v, n).with_lane(7, c.0[n]);
            }
            write_lanes_ntt(&mut self.values);
            let mut values = [0; 256];
            for i in 0..256usize {
                values[i] = value_to_mont(self.values[i].to_array()[7]);
            }
            Factor { values }
        }
    }

    /// Writes the polynomials (Algorithm 42), with coefficients from 0 to `q - 1`, and is used up by it.
    #[inline(never)]
    pub fn write_plain<const N: usize>(&mut self, out: &mut [R; N]) {
        write_lanes_inv_ntt(&mut self.values);
        write_lanes(&self.values, out);
    }

    crate::levels::with_avx2! {
        subtract_multiple_for_any subtract_multiple_for_avx2 subtract_multiple_for_others
        /// Takes `c v` away.
        pub fn subtract_multiple(&mut self, c: &Factor, v: &Transforms) {
            for n in 0..256usize {
                self.values[n] = self.values[n].minus(v.values[n].times(c.values[n]));
            }
        }
    }
}

/// A polynomial that vectors are multiplied by, as its transform in Montgomery form.
///
/// Contracts see the polynomial itself, with coefficients from 0 to `q - 1`.
pub struct Factor {
    values: [i32; 256],
}

impl Factor {
    crate::levels::with_sse42_and_avx2! {
        /// `c`, whose coefficients are below `q` in absolute value.
        #[inline(never)]
        pub fn of(c: &R) -> Factor {
            let mut values = c.0;
            write_ntt(&mut values, &mut Count::new());
            for n in 0..256usize {
                values[n] = value_to_mont(values[n]);
            }
            Factor { values }
        }
    }
}

/// The products of a polynomial with two vectors, one after the other, and then with other vectors, of at most eight polynomials
/// each. Where the first has four at most, one run of the network makes its product and four polynomials of the second one.
///
/// Contracts see the polynomial and both vectors.
pub struct Products<'a> {
    factor: &'a Factor,
    first: &'a Transforms,
    second: &'a Transforms,
    lanes: [Lanes; 256],
    // whether the product with the second vector is in the last four lanes
    has_second: bool,
}

impl<'a> Products<'a> {
    /// Those of `c` with `v` and `u`.
    pub fn of(c: &'a Factor, v: &'a Transforms, u: &'a Transforms) -> Products<'a> {
        Products {
            factor: c,
            first: v,
            second: u,
            lanes: [Lanes::from_array([0; 8]); 256],
            has_second: false,
        }
    }

    /// Writes that with the first vector, with coefficients from 0 to `q - 1`.
    pub fn write_first<const N: usize>(&mut self, out: &mut [R; N]) {
        if N <= 4 {
            write_multiples(self.factor, self.first, self.second, &mut self.lanes);
            self.has_second = true;
            write_lanes(&self.lanes, out);
        } else {
            let v = self.first;
            self.write_other(v, out);
        }
    }

    /// Writes that with the second vector, with coefficients from 0 to `q - 1`.
    pub fn write_second<const N: usize>(&mut self, out: &mut [R; N]) {
        if self.has_second && N <= 4 {
            write_last_lanes(&self.lanes, out);
        } else {
            let v = self.second;
            self.write_other(v, out);
        }
    }

    /// Writes that with another vector, with coefficients from 0 to `q - 1`.
    #[inline(never)]
    pub fn write_other<const N: usize>(&mut self, v: &Transforms, out: &mut [R; N]) {
        self.has_second = false;
        write_multiple(self.factor, v, &mut self.lanes);
        write_lanes(&self.lanes, out);
    }
}

crate::levels::with_avx2! {
    /// Writes `c v` (Algorithms 45 and 42 at each polynomial): lane `r` of value `n` is coefficient `n` of polynomial `r`.
    fn write_multiple(c: &Factor, v: &Transforms, out: &mut [Lanes; 256]) {
        for n in 0..256usize {
            out[n] = v.values[n].times(c.values[n]);
        }
        write_lanes_inv_ntt(out);
    }
}

crate::levels::with_avx2! {
    /// Writes `c v`, and from lane 4 on `c u`, in the first four polynomials of both.
    fn write_multiples(c: &Factor, v: &Transforms, u: &Transforms, out: &mut [Lanes; 256]) {
        for n in 0..256usize {
            out[n] = v.values[n].concat_low(u.values[n]).times(c.values[n]);
        }
        write_lanes_inv_ntt(out);
    }
}

/// Writes the polynomials whose coefficients are in the lanes.
#[inline(always)]
fn write_lanes<const N: usize>(lanes: &[Lanes; 256], out: &mut [R; N]) {
    for n in 0..256usize {
        write_coefficients(lanes[n], n, out);
    }
}

/// Writes the polynomials whose coefficients are in the last four lanes.
#[inline(always)]
fn write_last_lanes<const N: usize>(lanes: &[Lanes; 256], out: &mut [R; N]) {
    for n in 0..256usize {
        write_coefficients(lanes[n].swap_halves(), n, out);
    }
}

/// Coefficient `n` of each polynomial, with 0 if there is none. Coefficients are below `q` in absolute value.
#[inline(always)]
fn lanes_of<const N: usize>(v: &[R; N], n: usize) -> Lanes {
    let mut entries = [0; 8];
    for r in 0..N {
        entries[r] = v[r].0[n];
    }
    Lanes::from_array(entries)
}

/// Writes coefficient `n` of each polynomial.
#[inline(always)]
fn write_coefficients<const N: usize>(x: Lanes, n: usize, out: &mut [R; N]) {
    let entries = x.to_array();
    for r in 0..N {
        write_at(&mut out[r].0, n, entries[r]);
    }
}

/// Writes number `n`.
#[inline(always)]
fn write_at(w: &mut [i32; 256], n: usize, x: i32) {
    w[n] = x;
}
