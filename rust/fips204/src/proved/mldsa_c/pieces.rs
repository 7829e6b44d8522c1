// Made by tools/erase of crates/mldsa_c/src/pieces.rt. Change that, not this.
//! A message in pieces: a state in the caller's bytes, which any bytes may stand in.

use crate::proved::mldsa_c::numbers::{BROKEN_STATE, DONE, WRONG_LENGTH};
use crate::proved::mldsa_c::statuses::status_of_refusal;
use crate::proved::fips204_shake::SetName;
use crate::proved::fips204_shake::pieces::{MessageHasher, SAVED_LEN};

/// Begins a message that a public key is to verify.
pub(crate) fn begin(set: SetName, public_key: &[u8], context: &[u8], state: &mut [u8]) -> u32 {
    if state.len() != SAVED_LEN {
        return WRONG_LENGTH;
    }
    match MessageHasher::for_public_key(set, public_key, context) {
        Ok(hasher) => {
            hasher.save(state);
            DONE
        }
        Err(refusal) => status_of_refusal(refusal),
    }
}

/// Begins a message that a private key is to sign.
pub(crate) fn begin_private(
    set: SetName,
    private_key: &[u8],
    context: &[u8],
    state: &mut [u8],
) -> u32 {
    if state.len() != SAVED_LEN {
        return WRONG_LENGTH;
    }
    match MessageHasher::for_private_key(set, private_key, context) {
        Ok(hasher) => {
            hasher.save(state);
            DONE
        }
        Err(refusal) => status_of_refusal(refusal),
    }
}

/// Adds a piece to the end of a message.
pub fn mldsa_mu_update(piece: &[u8], state: &mut [u8]) -> u32 {
    let Some(saved) = <&[_; 337]>::try_from(&*state).ok() else {
        return WRONG_LENGTH;
    };
    let Some(mut hasher) = MessageHasher::restore(saved) else {
        return BROKEN_STATE;
    };
    hasher.update(piece);
    hasher.save(state);
    DONE
}

/// Writes the hash mu of a message.
pub fn mldsa_mu_finish(state: &[u8], mu: &mut [u8]) -> u32 {
    if mu.len() != 64 {
        return WRONG_LENGTH;
    }
    let Some(saved) = <&[_; 337]>::try_from(&*state).ok() else {
        return WRONG_LENGTH;
    };
    let Some(hasher) = MessageHasher::restore(saved) else {
        return BROKEN_STATE;
    };
    mu.copy_from_slice(&hasher.finalize());
    DONE
}
