// Made by tools/erase of crates/fips204/src/ml_dsa/matrix_bytes.rt. Change that, not this.
//! The matrix of a prepared key as bytes: its values row by row, each a word of 32 bits, the lowest byte first.

use crate::proved::fips204::types::{T, T0};
use crate::proved::fips204_base::Q;
use crate::proved::fips204_base::product::{Transforms, Values};

/// Writes a matrix, 1024 bytes for each entry.
pub(crate) fn write_matrix<const K: usize, const L: usize>(a: &[[T; L]; K], out: &mut [u8]) {
    let size = 1024 * L;
    for r in 0..K {
        let at = size * r;
        write_row(&a[r], &mut out[at..at + size]);
    }
}

/// Writes a row of a matrix.
fn write_row<const L: usize>(row: &[T; L], out: &mut [u8]) {
    for s in 0..L {
        let at = 1024 * s;
        write_entry(&row[s], &mut out[at..at + 1024]);
    }
}

/// Writes an entry of a matrix.
fn write_entry(t: &T, out: &mut [u8]) {
    for n in 0..256 {
        let at = 4 * n;
        out[at..at + 4].copy_from_slice(&t.0[n].unsigned_abs().to_le_bytes());
    }
}

/// Reads a matrix, or returns `None` if a value is `q` or more; `a` may then have been written in part.
pub(crate) fn read_matrix<const K: usize, const L: usize>(
    bytes: &[u8],
    a: &mut [[T; L]; K],
) -> Option<()> {
    let size = 1024 * L;
    for r in 0..K {
        let at = size * r;
        read_row(&bytes[at..at + size], &mut a[r])?;
    }
    Some(())
}

/// Writes `A v` over `v`, for the matrix that has these bytes, with one row of it at a time, or returns `None` if a value
/// is `q` or more; `v` may then have been written in part.
///
/// Not inlined, so that the rows leave the stack before the product is used.
#[inline(never)]
pub(crate) fn write_read_product<const K: usize, const L: usize>(
    bytes: &[u8],
    v: &mut Transforms,
) -> Option<()> {
    let mut row = [T0; L];
    let mut values = Values::zeros();
    v.write_values(&mut values);
    let size = 1024 * L;
    for r in 0..K {
        let at = size * r;
        read_row(&bytes[at..at + size], &mut row)?;
        v.write_row_product(r, &row, &values);
    }
    Some(())
}

/// Does nothing if a matrix has these bytes, or returns `None` if a value is `q` or more.
pub(crate) fn check_matrix<const K: usize, const L: usize>(bytes: &[u8]) -> Option<()> {
    let mut row = [T0; L];
    let size = 1024 * L;
    for r in 0..K {
        let at = size * r;
        read_row(&bytes[at..at + size], &mut row)?;
    }
    Some(())
}

/// Reads a row of a matrix, or returns `None` if a value is `q` or more.
fn read_row<const L: usize>(bytes: &[u8], row: &mut [T; L]) -> Option<()> {
    for s in 0..L {
        let at = 1024 * s;
        read_entry(&bytes[at..at + 1024], &mut row[s])?;
    }
    Some(())
}

/// Reads an entry of a matrix, or returns `None` if a value is `q` or more.
fn read_entry(bytes: &[u8], t: &mut T) -> Option<()> {
    let words = <&[_; 1024]>::try_from(&*bytes).ok()?;
    for n in 0..256 {
        let word = word_at(words, n);
        if word >= Q as u32 {
            return None;
        }
        t.0[n] = word as i32;
    }
    Some(())
}

/// Word `n` of an entry.
#[inline(always)]
fn word_at(words: &[u8; 1024], n: usize) -> u32 {
    let at = 4 * n;
    u32::from_le_bytes(*words[at..at + 4].first_chunk::<4>().unwrap())
}
