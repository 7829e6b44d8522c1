//! For `std::io`: Rust's, with a `BufReader` whose memory is asked of an allocator.

use crate::alloc::Global;
pub use crate::rt::Descriptor as Stdin;
pub use std::io::*;

pub struct BufReader<R>(std::io::BufReader<R>);

impl<R: Read> BufReader<R> {
    pub fn with_capacity(_: Global, capacity: usize, reader: R) -> Result<BufReader<R>> {
        Ok(BufReader(std::io::BufReader::with_capacity(
            capacity, reader,
        )))
    }

    pub fn get_ref(&self) -> &R {
        self.0.get_ref()
    }
}

impl<R: Read> Read for BufReader<R> {
    fn read(&mut self, buf: &mut [u8]) -> Result<usize> {
        self.0.read(buf)
    }
}

impl<R: Read> BufRead for BufReader<R> {
    fn fill_buf(&mut self) -> Result<&[u8]> {
        self.0.fill_buf()
    }

    fn consume(&mut self, count: usize) {
        self.0.consume(count);
    }
}
