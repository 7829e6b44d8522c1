// Made by tools/erase of crates/mldsa_c/src/statuses.rt. Change that, not this.
//! The statuses that the exports return.

use crate::proved::mldsa_c::numbers::{DONE, NO, NOT_PREPARED, WRONG_LENGTH, status_of};
use crate::proved::fips204_shake::bytes::Refusal;

/// A slice as an array of this length; the function around it returns `WRONG_LENGTH` for a slice of another.
macro_rules! checked_array {
    ($slice:ident, $length:literal) => {
        match <&[_; $length]>::try_from(&*$slice).ok() {
            Some(array) => array,
            None => return WRONG_LENGTH,
        }
    };
}

pub(crate) use checked_array;

/// The status of an error.
pub(crate) fn status_of_refusal(refusal: Refusal) -> u32 {
    match refusal {
        Refusal::Length(_) => WRONG_LENGTH,
        Refusal::Library(fault) => status_of(fault),
        Refusal::NotPrepared => NOT_PREPARED,
    }
}

/// The status of a call that writes.
pub(crate) fn status(answer: Result<(), Refusal>) -> u32 {
    match answer {
        Ok(()) => DONE,
        Err(refusal) => status_of_refusal(refusal),
    }
}

/// The status of a result of a question.
pub(crate) fn verdict_status(answer: Result<bool, Refusal>) -> u32 {
    match answer {
        Ok(true) => DONE,
        Ok(false) => NO,
        Err(refusal) => status_of_refusal(refusal),
    }
}

/// 1 for the status of yes, and 0 for every other one.
pub(crate) fn accepted(status: u32) -> u32 {
    if status == DONE { 1 } else { 0 }
}
