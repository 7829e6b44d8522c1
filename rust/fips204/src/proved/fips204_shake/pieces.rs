// Made by tools/erase of crates/fips204_shake/src/pieces.rt. Change that, not this.
//! The hash mu of a message that comes in pieces, which `sign_mu` and `verify_mu` take.

use crate::proved::fips204_shake::bytes::{Buffer, Refusal, SetName};
use crate::proved::fips204_shake::streams::Shake256Stream;
use crate::proved::fips204::Fault;
use crate::proved::fips204::xof::hash;
use crate::proved::shake::Shake256;

/// Hashes a message in pieces (FIPS 204, Algorithm 2 to the message M', and line 6 of Algorithm 7). Contracts say by
/// `Hashes hasher tr context m` that the hasher was begun with `tr` and `context`, and has taken `m` of the message.
///
/// The hash is the one that `sign` and `verify` make of the whole message: the `mu` of a key is made with the key's `tr`.
pub struct MessageHasher {
    hasher: Shake256,
}

/// How many bytes a saved hasher has.
pub const SAVED_LEN: usize = 337;

impl MessageHasher {
    /// Begins a message under a context, for the key whose `tr` this is.
    ///
    /// Errors: `Fault::SignCtx` if `context` has more than 255 bytes.
    pub fn new(tr: &[u8; 64], context: &[u8]) -> Result<MessageHasher, Fault> {
        if context.len() > 255 {
            return Err(Fault::SignCtx);
        }
        let mut hasher = Shake256::new();
        hasher.update(tr);
        hasher.update(&[0, context.len() as u8]);
        hasher.update(context);
        Ok(MessageHasher { hasher })
    }

    /// Begins a message that the public key with these bytes is to verify.
    ///
    /// Errors: a wrong length; `Fault::SignCtx` if `context` has more than 255 bytes.
    pub fn for_public_key(
        set: SetName,
        public_key: &[u8],
        context: &[u8],
    ) -> Result<MessageHasher, Refusal> {
        if public_key.len() != set.public_key_len() {
            return Err(Refusal::Length(Buffer::PublicKey));
        }
        let tr = hash::<Shake256Stream, 64>(&[public_key]);
        Ok(MessageHasher::new(&tr, context)?)
    }

    /// Begins a message that the private key with these bytes is to sign, under the `tr` that it keeps.
    ///
    /// Errors: a wrong length; `Fault::SignCtx` if `context` has more than 255 bytes.
    pub fn for_private_key(
        set: SetName,
        private_key: &[u8],
        context: &[u8],
    ) -> Result<MessageHasher, Refusal> {
        if private_key.len() != set.private_key_len() {
            return Err(Refusal::Length(Buffer::PrivateKey));
        }
        let mut tr = [0; 64];
        tr.copy_from_slice(&private_key[64..128]);
        Ok(MessageHasher::new(&tr, context)?)
    }

    /// Adds a piece to the end of the message.
    pub fn update(&mut self, piece: &[u8]) {
        self.hasher.update(piece);
    }

    /// The hash mu of the message.
    pub fn finalize(self) -> [u8; 64] {
        let mut mu = [0; 64];
        let mut reader = self.hasher.finalize_xof();
        reader.read(&mut mu);
        mu
    }

    /// Writes the hasher as bytes, from which `restore` makes it again.
    pub fn save(&self, out: &mut [u8]) {
        self.hasher.save(out);
    }

    /// The hasher of these bytes, or none if no hasher has them: if their last byte is 0 or above 136.
    pub fn restore(saved: &[u8; SAVED_LEN]) -> Option<MessageHasher> {
        let hasher = Shake256::restore(saved)?;
        Some(MessageHasher { hasher })
    }
}
