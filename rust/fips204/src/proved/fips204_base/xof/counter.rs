// Made by tools/erase of crates/fips204_base/src/xof/counter.rt. Change that, not this.
//! Counter mode: a reader of the blocks that a hash gives.

use crate::proved::fips204_base::xof::XofReader;
use crate::sha2_arrays::Digest;
use core::marker::PhantomData;

/// A hash function with digests of `N` bytes, for an XOF in counter mode.
pub trait BlockHash<const N: usize>: Sized {
    /// The digest of the concatenated parts; how the input is cut makes no difference.
    fn digest(parts: &[&[u8]]) -> [u8; N];

}

/// A reader of blocks: block `i` is the digest of a seed followed by `i` as four bytes, the lowest first. It
/// holds one block, and computes the next one when a byte of it is read.
///
/// For an XOF of your own use this as the `Reader` of your `Xof`, and open it by `new` with `FRONT / N`
/// blocks. `Sha256` and `Sha512` of the crate `sha2` implement `BlockHash`; implement it for another hash
/// function. The output is `counter_blocks`, and `length-counter_blocks` is its length.
pub struct BlockReader<H: BlockHash<N>, const N: usize> {
    hash: PhantomData<H>,
    seed: [u8; N],
    blocks: u32,
    /// The number of the next block.
    next: u32,
    block: [u8; N],
    /// How many bytes of `block` are given, or `N` where none is made yet.
    given: usize,
}

/// The digest of the joined parts. Inlined, so that it is compiled for the lengths of a block's parts.
#[inline(always)]
pub(crate) fn digest_of_parts<D: Digest>(parts: &[&[u8]]) -> D::Output {
    let mut hasher = D::new();
    for part in parts {
        hasher.update(*part);
    }
    hasher.finalize()
}

/// Copies from `source` as many bytes as `out` takes, and returns how many.
fn write_run(source: &[u8], out: &mut [u8]) -> usize {
    let count = source.len().min(out.len());
    out[..count].copy_from_slice(&source[..count]);
    count
}

impl<H: BlockHash<N>, const N: usize> BlockReader<H, N> {
    /// A reader of the first `blocks` blocks, at most 1048576 bytes in all. The seed is the digest of the
    /// concatenated parts.
    pub(crate) fn new(parts: &[&[u8]], blocks: u32) -> BlockReader<H, N> {
        BlockReader {
            hash: PhantomData,
            seed: H::digest(parts),
            blocks,
            next: 0,
            block: [0; N],
            given: N,
        }
    }

    /// Fills the start of `out` with bytes of one block, and returns how many these are.
    #[inline(always)]
    fn read_run(&mut self, out: &mut [u8]) -> usize {
        if self.given == N {
            self.block = H::digest(&[self.seed.as_slice(), self.next.to_le_bytes().as_slice()]);
            self.next += 1;
            self.given = 0;
        }
        // A part with a start is taken of a slice: the length of the array is a parameter.
        let whole = &self.block[..];
        let count = write_run(&whole[self.given..], out);
        self.given += count;
        count
    }
}

impl<H: BlockHash<N>, const N: usize> XofReader for BlockReader<H, N> {
    fn left(&self) -> usize {
        N - self.given + (self.blocks - self.next) as usize * N
    }

    // Not inlined: where the digest has one place, the lengths of its parts are constants.
    #[inline(never)]
    fn read(&mut self, out: &mut [u8]) {
        let mut filled = 0;
        while filled < out.len() {
            filled += self.read_run(&mut out[filled..]);
        }
    }
}
