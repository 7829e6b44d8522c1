// Made by tools/erase of crates/fips204_base/src/xof/front.rt. Change that, not this.
//! A reader of an output held in an array.

use crate::proved::fips204_base::xof::XofReader;

/// A reader of an output of `N` bytes, which it holds.
///
/// For an XOF with a short output write a function that fills the array, use this as the `Reader` of your
/// `Xof`, and open it by `new`.
pub struct FrontReader<const N: usize> {
    front: [u8; N],
    /// How many bytes are given.
    given: usize,
}

impl<const N: usize> FrontReader<N> {
    /// A reader of these bytes.
    pub fn new(front: [u8; N]) -> FrontReader<N> {
        FrontReader { front, given: 0 }
    }
}

impl<const N: usize> XofReader for FrontReader<N> {
    fn left(&self) -> usize {
        N - self.given
    }

    fn read(&mut self, out: &mut [u8]) {
        let end = self.given + out.len();
        // A part with a start is taken of a slice: the length of the array is a parameter.
        let whole = &self.front[..];
        out.copy_from_slice(&whole[self.given..end]);
        self.given = end;
    }
}
