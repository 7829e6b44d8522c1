// Made by tools/erase of crates/mlsign_engine/src/message.rt. Change that, not this.
//! The hash of a message of any size, read piece by piece.

use crate::standing::*;

use crate::proved::mlsign_engine::fault::CommandFault;
use crate::proved::mlsign_engine::source::Source;
use fips204_shake::pieces::MessageHasher;

/// How many bytes of a message are asked for at once.
const PIECE: usize = 65536;

/// The hash mu of a message under a key's `tr` and a context (FIPS 204, Algorithms 2 and 7, line 6). The message is all that the
/// source gives, piece by piece, and is not kept.
///
/// Errors: `Message` if the source fails, or gives more than 2^64 - 1 pieces.
pub(crate) fn message_mu<I: Source>(
    tr: &[u8; 64],
    context: &[u8],
    input: &mut I,
) -> Result<[u8; 64], CommandFault> {
    let mut hasher = MessageHasher::new(tr, context).unwrap();
    let mut piece = [0; PIECE];
    for _count in 0..u64::MAX {
        let Some(count) = input.give(&mut piece) else {
            return Err(CommandFault::Message);
        };
        if count == 0 {
            return Ok(hasher.finalize());
        }
        hasher.update(&piece[..count]);
    }
    Err(CommandFault::Message)
}
