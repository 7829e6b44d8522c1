//! For `std::random`: a source of random bytes, which the system is.

use crate::rt::HostRuntime;
use rand_core::{OsRng, RngCore};
use std::io;

pub trait RandomSource {
    fn fill_bytes(&self, buf: &mut [u8]) -> io::Result<()>;
}

impl RandomSource for HostRuntime {
    fn fill_bytes(&self, buf: &mut [u8]) -> io::Result<()> {
        OsRng
            .try_fill_bytes(buf)
            .map_err(|error| match error.raw_os_error() {
                Some(number) => io::Error::from_raw_os_error(number),
                None => io::Error::other(error.to_string()),
            })
    }
}

#[cfg(test)]
mod tests {
    use super::*;

    #[test]
    fn bytes_differ() -> io::Result<()> {
        let (mut one, mut other) = ([0; 32], [0; 32]);
        HostRuntime.fill_bytes(&mut one)?;
        HostRuntime.fill_bytes(&mut other)?;
        assert!(one != [0; 32] && one != other);
        Ok(())
    }
}
