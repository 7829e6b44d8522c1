// Made by tools/erase of crates/mldsa_c/src/sets.rt. Change that, not this.
//! The lengths and the name of a parameter set by its number, for languages that read no header.

use crate::proved::mldsa_c::numbers::{DONE, NO, WRONG_LENGTH};
use crate::proved::mldsa_c::texts::write_padded;
use crate::proved::fips204_shake::SetName;

/// The set of a number.
fn numbered_set(number: u32) -> Option<SetName> {
    match number {
        44 => Some(SetName::MlDsa44),
        65 => Some(SetName::MlDsa65),
        87 => Some(SetName::MlDsa87),
        _ => None,
    }
}

/// The lengths of a set, in the order of `enum mldsa_length` of `c/mldsa.h`.
fn lengths_of(set: SetName) -> [u32; 13] {
    match set {
        SetName::MlDsa44 => [
            1312, 2560, 2420, 32, 32, 64, 337, 17760, 18944, 1334, 54, 2588, 2626,
        ],
        SetName::MlDsa65 => [
            1952, 4032, 3309, 32, 32, 64, 337, 32736, 34752, 1974, 54, 4060, 4098,
        ],
        SetName::MlDsa87 => [
            2592, 4896, 4627, 32, 32, 64, 337, 60000, 62240, 2614, 54, 4924, 4962,
        ],
    }
}

/// The name of a set.
fn name_of(set: SetName) -> &'static str {
    match set {
        SetName::MlDsa44 => "ML-DSA-44",
        SetName::MlDsa65 => "ML-DSA-65",
        SetName::MlDsa87 => "ML-DSA-87",
    }
}

/// Writes numbers, each in four bytes, the lowest first.
fn write_numbers(numbers: &[u32; 13], out: &mut [u8]) {
    for n in 0..13 {
        let at = 4 * n;
        out[at..at + 4].copy_from_slice(&numbers[n].to_le_bytes());
    }
}

/// Writes the lengths of the set of a number, each in four bytes, the lowest first: 52 bytes.
pub fn mldsa_lengths(set: u32, lengths: &mut [u8]) -> u32 {
    if lengths.len() != 52 {
        return WRONG_LENGTH;
    }
    let Some(set) = numbered_set(set) else {
        return NO;
    };
    write_numbers(&lengths_of(set), lengths);
    DONE
}

/// Writes the name of the set of a number, and zeros behind it: 16 bytes.
pub fn mldsa_name(set: u32, name: &mut [u8]) -> u32 {
    if name.len() != 16 {
        return WRONG_LENGTH;
    }
    let Some(set) = numbered_set(set) else {
        return NO;
    };
    write_padded(name_of(set).as_bytes(), name);
    DONE
}
