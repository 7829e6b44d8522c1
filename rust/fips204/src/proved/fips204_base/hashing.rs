// Made by tools/erase of crates/fips204_base/src/hashing.rt. Change that, not this.
//! Samplers: the matrix, the secret vectors, the challenge and the mask from XOFs (FIPS 204, section 7.3).

mod challenge;
mod mask;
mod matrix;
mod sampler;
mod small;

use crate::proved::fips204_base::xof::Xof;
pub use challenge::sample_in_ball;
pub use mask::expand_mask;
pub(crate) use matrix::write_next_row;
pub use matrix::{expand_a, rej_ntt_poly, write_expanded_a};
pub use small::{expand_s, rej_bounded_poly, write_expanded_s};

/// Opens the reader of the XOF over `rho` and `number` in two bytes.
fn open_numbered<H: Xof>(rho: &[u8; 64], number: u16) -> H::Reader {
    H::open(&[rho.as_slice(), number.to_le_bytes().as_slice()])
}

/// Puts a coefficient, if there is one, at place `kept` of `values`, if there is room, and returns how many
/// there are then.
fn write_kept(coefficient: Option<i32>, values: &mut [i32; 256], kept: usize) -> usize {
    match coefficient {
        Some(coefficient) if kept < 256 => {
            values[kept] = coefficient;
            kept + 1
        }
        _ => kept,
    }
}

/// Like `write_kept`, but without a branch on whether there is a coefficient, because that depends on a secret and no
/// processor can predict it: if there is none, the place holds 0 until it is written again.
#[inline(always)]
fn push_branchless(coefficient: Option<i32>, values: &mut [i32; 256], kept: usize) -> usize {
    if kept < 256 {
        values[kept] = coefficient.unwrap_or(0);
        kept + usize::from(coefficient.is_some())
    } else {
        kept
    }
}
