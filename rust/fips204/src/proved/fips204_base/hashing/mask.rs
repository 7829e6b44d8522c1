// Made by tools/erase of crates/fips204_base/src/hashing/mask.rt. Change that, not this.
//! The mask, from the XOF in the place of SHAKE256.

use crate::proved::fips204_base::conversion::write_unpacked_by_range;
use crate::proved::fips204_base::encodings::polynomial_size;
use crate::proved::fips204_base::fault::Fault;
use crate::proved::fips204_base::hashing::open_numbered;
use crate::proved::fips204_base::hashing::sampler::Sampler;
use crate::proved::fips204_base::types::{R, R0};
use crate::proved::fips204_base::xof::Xof;

/// How many bytes a polynomial of the mask takes of its output.
fn size_of_polynomial(gamma1: i32) -> usize {
    polynomial_size(gamma1 - 1, gamma1)
}

/// Writes the polynomial of the mask from these bytes.
fn write_polynomial(gamma1: i32, bytes: &[u8], y: &mut R) {
    // y[r] = BitUnpack(v, gamma1 - 1, gamma1)
    write_unpacked_by_range(bytes, gamma1 - 1, gamma1, y).unwrap();
}

/// The sampler of a mask, whose polynomials are from `rho` and a number in two bytes each.
struct MaskPolynomials<'a> {
    gamma1: i32,
    rho: &'a [u8; 64],
}

impl<'a, H: Xof> Sampler<H> for MaskPolynomials<'a> {
    type Value = R;

    fn size(&self) -> usize {
        size_of_polynomial(self.gamma1)
    }

    fn open(&self, n: usize) -> H::Reader {
        open_numbered::<H>(self.rho, n as u16)
    }

    fn write(&self, first: &[u8], _reader: &mut H::Reader, value: &mut R) -> Result<(), Fault> {
        // v = H(rho || number, 32 c)
        write_polynomial(self.gamma1, first, value);
        Ok(())
    }
}

/// `ExpandMask` (Algorithm 34): `L` polynomials with coefficients in `[-gamma1 + 1, gamma1]`, the one
/// at `r` from `rho` and the number `mu + r` in two bytes. `gamma1` is 131072 or 524288, and the
/// largest number is at most 65535.
pub fn expand_mask<const L: usize, H: Xof>(gamma1: i32, rho: &[u8; 64], mu: u16) -> [R; L] {
    let mut polynomials = [R0; L];
    let mask = MaskPolynomials { gamma1, rho };
    Sampler::<H>::write_all(&mask, mu as usize, &mut polynomials).unwrap();
    polynomials
}
