//! A stand-in for the crate `sha3`: what fips204 0.5.0 calls of it, over SHA-2 in counter mode, which is not SHAKE.
//!
//! `Shake256` is the XOF `H`, and `Shake128` the XOF `G`. XOFs have no end, and nothing is wiped.

pub use sha2::digest;

use digest::block_buffer::Eager;
use digest::consts::U136;
use digest::core_api::{
    Block, BlockSizeUser, Buffer, BufferKindUser, ExtendableOutputCore, UpdateCore, XofReaderCore,
};
use digest::{Digest, ExtendableOutput, Output, Update, XofReader};
use sha2::{Sha256, Sha512};

/// An XOF that absorbs its input.
#[derive(Clone, Default)]
pub struct Absorbing<D>(D);

/// The XOF `H`.
pub type Shake256 = Absorbing<Sha256>;

/// The XOF `G`.
pub type Shake128 = Absorbing<Sha512>;

impl<D: Digest> Update for Absorbing<D> {
    fn update(&mut self, data: &[u8]) {
        Digest::update(&mut self.0, data);
    }
}

impl<D: Digest> ExtendableOutput for Absorbing<D> {
    type Reader = Squeezing<D>;

    fn finalize_xof(self) -> Squeezing<D> {
        let (block, given) = (Output::<D>::default(), <D as Digest>::output_size());
        Squeezing { seed: self.0.finalize(), next: 0, block, given }
    }
}

/// An XOF that gives its bytes. A block is made when a byte of it is asked for: block `i` is the digest of the seed and
/// of `i` as four bytes, the lowest first.
#[derive(Clone)]
pub struct Squeezing<D: Digest> {
    /// The digest of the input.
    seed: Output<D>,
    /// The number of the next block.
    next: u32,
    /// The last block.
    block: Output<D>,
    /// How many of its bytes are given.
    given: usize,
}

impl<D: Digest> XofReader for Squeezing<D> {
    fn read(&mut self, out: &mut [u8]) {
        let mut filled = 0;
        while filled < out.len() {
            if self.given == self.block.len() {
                self.block = D::new().chain_update(&self.seed).chain_update(self.next.to_le_bytes()).finalize();
                self.next = self.next.wrapping_add(1);
                self.given = 0;
            }
            let count = (self.block.len() - self.given).min(out.len() - filled);
            out[filled..filled + count].copy_from_slice(&self.block[self.given..self.given + count]);
            self.given += count;
            filled += count;
        }
    }
}

/// The XOF `H` as fips204 takes it for secrets: input and output in blocks of 136 bytes, as of SHAKE256, which are not
/// those of the digest. So the last block that is asked for may make more of the digest's than are used.
#[derive(Clone, Default)]
pub struct Shake256Core(Shake256);

impl BlockSizeUser for Shake256Core {
    type BlockSize = U136;
}

impl BufferKindUser for Shake256Core {
    type BufferKind = Eager;
}

impl UpdateCore for Shake256Core {
    fn update_blocks(&mut self, blocks: &[Block<Self>]) {
        for block in blocks {
            self.0.update(block);
        }
    }
}

impl ExtendableOutputCore for Shake256Core {
    type ReaderCore = Shake256ReaderCore;

    fn finalize_xof_core(&mut self, buffer: &mut Buffer<Self>) -> Shake256ReaderCore {
        self.0.update(buffer.get_data());
        Shake256ReaderCore(core::mem::take(&mut self.0).finalize_xof())
    }
}

/// The reader of [`Shake256Core`].
#[derive(Clone)]
pub struct Shake256ReaderCore(Squeezing<Sha256>);

impl BlockSizeUser for Shake256ReaderCore {
    type BlockSize = U136;
}

impl XofReaderCore for Shake256ReaderCore {
    fn read_block(&mut self) -> Block<Self> {
        let mut block = Block::<Self>::default();
        self.0.read(&mut block);
        block
    }
}
