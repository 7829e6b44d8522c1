// Made by tools/erase of crates/fips204_base/src/xof.rt. Change that, not this.
//! XOFs, in place of SHAKE256 and SHAKE128.

#[cfg(feature = "sha2")]
mod counter;
mod front;
#[cfg(feature = "sha2")]
mod sha2_ctr;

#[cfg(feature = "sha2")]
pub use counter::{BlockHash, BlockReader};
pub use front::FrontReader;
#[cfg(feature = "sha2")]
pub use sha2_ctr::{
    Sha256Ctr, Sha256CtrLong, Sha256CtrReader, Sha512Ctr, Sha512CtrLong, Sha512CtrReader,
};

/// A reader of an XOF's output.
// Contracts see it as `rest`, the list of the bytes not yet read.
pub trait XofReader {
    /// The number of bytes not yet read.
    fn left(&self) -> usize;

    /// Fills `out` with the next bytes. `out` has at most `left()` bytes.
    fn read(&mut self, out: &mut [u8]);

    /// Fills the outputs with the next bytes of four readers, as `read` of each does. The outputs are of one length, and each
    /// reader has as many bytes left; or the fourth is empty, if only three are wanted.
    ///
    /// A reader may have a body of its own, which makes the bytes of the four side by side.
    fn read_four(
        a: &mut Self,
        b: &mut Self,
        c: &mut Self,
        d: &mut Self,
        to_a: &mut [u8],
        to_b: &mut [u8],
        to_c: &mut [u8],
        to_d: &mut [u8],
    ) {
        a.read(to_a);
        b.read(to_b);
        c.read(to_c);
        d.read(to_d);
    }
}

/// An XOF, in place of SHAKE256 or SHAKE128 (FIPS 204, section 3.7): the input determines an output of
/// `FRONT` bytes. Rejection sampling reaches its limit at a quarter of them (`sampling_limit`).
pub trait Xof: Sized {
    type Reader: XofReader;

    /// The number of bytes of an output, from 4096 to 1048576.
    const FRONT: usize;

    /// Opens a reader of the output over the concatenated parts; how the input is cut makes no difference.
    fn open(parts: &[&[u8]]) -> Self::Reader;

}

/// The first `N` bytes of the XOF's output over the concatenated parts, as `H(..)` of the standard; `N` is at most
/// 4096.
pub fn hash<H: Xof, const N: usize>(parts: &[&[u8]]) -> [u8; N] {
    let mut out = [0u8; N];
    let mut reader = H::open(parts);
    reader.read(&mut out);
    out
}

/// The number of draws at which rejection sampling from an XOF reaches its limit: triples for a matrix
/// entry, bytes for a small polynomial, bytes for a challenge, not counting the eight of its signs. A quarter
/// of `FRONT`, rounded down: from 1024 to 262144.
pub fn sampling_limit<X: Xof>() -> usize {
    X::FRONT / 4
}

/// The XOF whose output is 4096 times the byte `B`, for every input.
pub struct Fill<const B: u8>;

/// A reader of `Fill`.
pub struct FillReader<const B: u8> {
    left: usize,
}

impl<const B: u8> XofReader for FillReader<B> {
    fn left(&self) -> usize {
        self.left
    }

    fn read(&mut self, out: &mut [u8]) {
        self.left -= out.len();
        out.fill(B);
    }
}

impl<const B: u8> Xof for Fill<B> {
    type Reader = FillReader<B>;

    const FRONT: usize = 4096;

    fn open(_parts: &[&[u8]]) -> FillReader<B> {
        FillReader { left: 4096 }
    }
}
