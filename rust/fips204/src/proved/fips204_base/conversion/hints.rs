// Made by tools/erase of crates/fips204_base/src/conversion/hints.rt. Change that, not this.
//! The encoding of hints.

use crate::proved::fips204_base::types::{R, R0};

/// Writes the polynomial with ones at `places` and zeros elsewhere, or returns `None` if the places do not strictly
/// rise.
fn write_ones(places: &[u8], w: &mut R) -> Option<()> {
    *w = R0;
    for k in 0..places.len() {
        let place = places[k] as usize;
        // y[Index - 1] >= y[Index]: none
        if k > 0 && places[k - 1] as usize >= place {
            return None;
        }
        // h[i]_y[Index] = 1
        w.0[place] = 1;
    }
    Some(())
}

/// `HintBitUnpack` (Algorithm 21): the hint that `y` encodes, or `None` if it encodes none.
///
/// `omega` is at least 1, `omega + K` is below 256, and `y` has exactly `omega + K` bytes.
pub fn hint_bit_unpack<const K: usize>(omega: i32, y: &[u8]) -> Option<[R; K]> {
    let mut h = [R0; K];
    write_unpacked_hint(omega, y, &mut h)?;
    Some(h)
}

/// `hint_bit_unpack`, written into the caller's place. Where `y` encodes no hint, part of one may be written.
pub(crate) fn write_unpacked_hint<const K: usize>(
    omega: i32,
    y: &[u8],
    h: &mut [R; K],
) -> Option<()> {
    let limit = omega as usize;
    let mut index = 0usize;
    for i in 0..K {
        let end = y[limit + i] as usize;
        // y[omega + i] < Index or y[omega + i] > omega: none
        if end < index || end > limit {
            return None;
        }
        write_ones(&y[index..end], &mut h[i])?;
        index = end;
    }
    // y[i] != 0 for an i from Index to omega - 1: none
    for k in index..limit {
        if y[k] != 0 {
            return None;
        }
    }
    Some(())
}

/// Writes the places of the ones from `from` on, and returns where they end.
fn write_places(w: &R, y: &mut [u8], from: usize) -> usize {
    let mut at = from;
    for j in 0..256usize {
        if w.0[j] > 0 {
            // h[i]_j != 0: y[Index] = j, Index = Index + 1
            y[at] = j as u8;
            at += 1;
        }
    }
    at
}

/// `HintBitPack` (Algorithm 20): writes the encoding of the hint `h`, whose coefficients are 0 or
/// 1, with at most `omega` ones in all.
///
/// `omega` is at least 1, `omega + K` is below 256, and `y` has exactly `omega + K` bytes.
pub fn hint_bit_pack<const K: usize>(omega: i32, h: &[R; K], y: &mut [u8]) {
    y.fill(0);
    let limit = omega as usize;
    let mut index = 0usize;
    for i in 0..K {
        index = write_places(&h[i], y, index);
        // y[omega + i] = Index
        y[limit + i] = index as u8;
    }
}
