//! For the crate `rand_core`: the traits of its version 0.10, which are others than those of 0.6, that Debian has.

pub trait Rng {
    fn fill_bytes(&mut self, dst: &mut [u8]);
}

pub trait SeedableRng {
    fn seed_from_u64(seed: u64) -> Self;
}

pub trait TryRng {
    type Error: std::error::Error;

    fn try_next_u32(&mut self) -> Result<u32, Self::Error>;

    fn try_next_u64(&mut self) -> Result<u64, Self::Error>;

    fn try_fill_bytes(&mut self, dst: &mut [u8]) -> Result<(), Self::Error>;
}

pub trait TryCryptoRng: TryRng {}
