// Made by tools/erase of crates/fips204_shake/src/bytes/slices.rt. Change that, not this.
//! Slices as arrays.

/// Borrows a slice of exactly `N` bytes as an array.
pub fn array_of<const N: usize>(bytes: &[u8]) -> &[u8; N] {
    <&[_; N]>::try_from(&*bytes).ok().unwrap()
}
