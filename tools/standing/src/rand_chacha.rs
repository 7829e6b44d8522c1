//! For the crate `rand_chacha`: that of crates.io, with the traits of `crate::rand_core`.

use crate::rand_core::{Rng, SeedableRng};
use rand_chacha::rand_core::{RngCore, SeedableRng as _};

pub struct ChaCha8Rng(rand_chacha::ChaCha8Rng);

impl SeedableRng for ChaCha8Rng {
    fn seed_from_u64(seed: u64) -> ChaCha8Rng {
        ChaCha8Rng(rand_chacha::ChaCha8Rng::seed_from_u64(seed))
    }
}

impl Rng for ChaCha8Rng {
    fn fill_bytes(&mut self, dst: &mut [u8]) {
        self.0.fill_bytes(dst);
    }
}
