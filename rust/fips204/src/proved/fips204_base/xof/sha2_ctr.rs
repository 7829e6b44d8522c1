// Made by tools/erase of crates/fips204_base/src/xof/sha2_ctr.rt. Change that, not this.
//! SHA-256 and SHA-512 in counter mode, for tests: over `Sha256Ctr` no parameter set has more than 128 bits of
//! collision resistance.

use crate::proved::fips204_base::xof::Xof;
use crate::proved::fips204_base::xof::counter::{BlockHash, BlockReader, digest_of_parts};
use crate::sha2_arrays::{Sha256, Sha512};

impl BlockHash<32> for Sha256 {
    #[inline(always)]
    fn digest(parts: &[&[u8]]) -> [u8; 32] {
        digest_of_parts::<Sha256>(parts)
    }
}

impl BlockHash<64> for Sha512 {
    #[inline(always)]
    fn digest(parts: &[&[u8]]) -> [u8; 64] {
        digest_of_parts::<Sha512>(parts)
    }
}

/// A reader of `Sha256Ctr` or `Sha256CtrLong`.
pub type Sha256CtrReader = BlockReader<Sha256, 32>;

/// A reader of `Sha512Ctr` or `Sha512CtrLong`.
pub type Sha512CtrReader = BlockReader<Sha512, 64>;

/// SHA-256 in counter mode, for tests: 128 blocks over the digest of the input, where block `i` is SHA-256 of that
/// digest followed by `i` as four bytes, the lowest first.
pub struct Sha256Ctr;

impl Xof for Sha256Ctr {
    type Reader = Sha256CtrReader;

    const FRONT: usize = 4096;

    fn open(parts: &[&[u8]]) -> Sha256CtrReader {
        BlockReader::new(parts, 128)
    }
}

/// The XOF with the blocks of `Sha256Ctr`, 512 of them: its output has 16384 bytes.
pub struct Sha256CtrLong;

impl Xof for Sha256CtrLong {
    type Reader = Sha256CtrReader;

    const FRONT: usize = 16384;

    fn open(parts: &[&[u8]]) -> Sha256CtrReader {
        BlockReader::new(parts, 512)
    }
}

/// SHA-512 in counter mode: 64 blocks over the digest of the input, where block `i` is SHA-512 of that digest
/// followed by `i` as four bytes, the lowest first.
pub struct Sha512Ctr;

impl Xof for Sha512Ctr {
    type Reader = Sha512CtrReader;

    const FRONT: usize = 4096;

    fn open(parts: &[&[u8]]) -> Sha512CtrReader {
        BlockReader::new(parts, 64)
    }
}

/// The XOF with the blocks of `Sha512Ctr`, 256 of them: its output has 16384 bytes.
pub struct Sha512CtrLong;

impl Xof for Sha512CtrLong {
    type Reader = Sha512CtrReader;

    const FRONT: usize = 16384;

    fn open(parts: &[&[u8]]) -> Sha512CtrReader {
        BlockReader::new(parts, 256)
    }
}
