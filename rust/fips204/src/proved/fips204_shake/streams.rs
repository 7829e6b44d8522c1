// Made by tools/erase of crates/fips204_shake/src/streams.rt. Change that, not this.
//! SHAKE256 and SHAKE128 as the XOFs of `fips204`.

use crate::proved::fips204::xof::{Xof, XofReader};
use crate::proved::shake::{Shake, ShakeReader};

/// The number of bytes of the outputs here: as many as `Xof` allows. What is not read of an output costs nothing. The limits of
/// sampling, a quarter of it, lie far above those that Appendix C of FIPS 204 asks for at least.
pub const FRONT: usize = 1_048_576;

/// A reader of an output: so many bytes of SHAKE with blocks of `R` bytes.
pub struct SpongeReader<const R: usize> {
    output: ShakeReader<R>,
    left: usize,
}

impl<const R: usize> SpongeReader<R> {
    /// A reader of the output of the joined parts.
    fn open(parts: &[&[u8]]) -> SpongeReader<R> {
        let mut hasher = Shake::<R>::new();
        for part in parts {
            hasher.update(part);
        }
        SpongeReader {
            output: hasher.finalize_xof(),
            left: FRONT,
        }
    }
}

impl<const R: usize> XofReader for SpongeReader<R> {
    fn left(&self) -> usize {
        self.left
    }

    fn read(&mut self, out: &mut [u8]) {
        self.output.read(out);
        self.left -= out.len();
    }

    fn read_four(
        a: &mut SpongeReader<R>,
        b: &mut SpongeReader<R>,
        c: &mut SpongeReader<R>,
        d: &mut SpongeReader<R>,
        to_a: &mut [u8],
        to_b: &mut [u8],
        to_c: &mut [u8],
        to_d: &mut [u8],
    ) {
        ShakeReader::read_four(
            &mut a.output,
            &mut b.output,
            &mut c.output,
            &mut d.output,
            to_a,
            to_b,
            to_c,
            to_d,
        );
        a.left -= to_a.len();
        b.left -= to_b.len();
        c.left -= to_c.len();
        d.left -= to_d.len();
    }
}

/// SHAKE256, the function H of the standard.
pub struct Shake256Stream;

/// SHAKE128, the function G of the standard.
pub struct Shake128Stream;

impl Xof for Shake256Stream {
    type Reader = SpongeReader<136>;

    const FRONT: usize = FRONT;

    fn open(parts: &[&[u8]]) -> SpongeReader<136> {
        SpongeReader::open(parts)
    }
}

impl Xof for Shake128Stream {
    type Reader = SpongeReader<168>;

    const FRONT: usize = FRONT;

    fn open(parts: &[&[u8]]) -> SpongeReader<168> {
        SpongeReader::open(parts)
    }
}

