// Made by tools/erase of crates/fips204_base/src/types.rt. Change that, not this.
//! Polynomials and transforms.

/// A polynomial: its 256 coefficients, the constant one first.
#[derive(Clone, Copy, PartialEq, Eq)]
pub struct R(pub [i32; 256]);

/// A transform: the 256 values that Algorithm 41 of FIPS 204 gives for a polynomial.
#[derive(Clone, Copy)]
pub struct T(pub [i32; 256]);

/// The polynomial whose coefficients are all zero.
pub const R0: R = R([0; 256]);

/// The transform whose values are all zero.
pub const T0: T = T([0; 256]);

/// A whole number that stands for its residue modulo `q`.
pub type Zq = i32;
