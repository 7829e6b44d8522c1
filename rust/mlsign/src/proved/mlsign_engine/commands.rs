// Made by tools/erase of crates/mlsign_engine/src/commands.rt. Change that, not this.
//! The commands, over keys and a source of the message.

use crate::standing::*;

use crate::proved::mlsign_engine::fault::CommandFault;
use crate::proved::mlsign_engine::forms::{Form, private_file, public_file};
use crate::proved::mlsign_engine::keys::KeyPair;
use crate::proved::mlsign_engine::message::message_mu;
use crate::proved::mlsign_engine::prepared::{SigningKey, VerifyingKey};
use crate::proved::mlsign_engine::source::Source;
use fips204::SetName;
use fips204_shake::der::PrivateKey;
use rattle_std::alloc::Global;

/// The most bytes of a context.
const LONGEST: usize = 255;

/// The files of a pair of keys.
#[derive(Debug)]
pub struct KeyFiles {
    /// The private key, as its seed.
    pub private: Vec<u8>,
    /// The public key.
    pub public: Vec<u8>,
}

/// Makes the key pair of a seed, which is proved to be consistent, and its files in this form.
///
/// Errors: `Library` if rejection sampling reaches its limit; `Memory`.
pub fn keygen(
    alloc: Global,
    form: Form,
    algorithm: SetName,
    seed: &[u8; 32],
) -> Result<KeyFiles, CommandFault> {
    let key = PrivateKey::Seed(seed.as_slice());
    let pair = KeyPair::of_parts(alloc, algorithm, key)?;
    let private = private_file(alloc, form, algorithm, key)?;
    let public = public_file(alloc, form, algorithm, pair.public())?;
    Ok(KeyFiles { private, public })
}

/// Signs a message under a context, over these random bytes: 32 zeros give the deterministic variant. The message is all that the
/// source gives, and is not kept.
///
/// Errors, in this order: `Context` if the context has more than 255 bytes; `Message` if the source fails; and `Library` or `Memory`
/// where they arise.
pub fn sign<I: Source>(
    alloc: Global,
    key: &SigningKey,
    random: &[u8; 32],
    context: &[u8],
    input: &mut I,
) -> Result<Vec<u8>, CommandFault> {
    if context.len() > LONGEST {
        return Err(CommandFault::Context);
    }
    let algorithm = key.algorithm();
    let tr = key.tr();
    let mu = message_mu(&tr, context, input)?;
    let mut signature = try_vec![alloc; 0; algorithm.signature_len()]?;
    key.sign_mu(random, &mu, signature.as_mut_slice())?;
    Ok(signature)
}

/// Whether a key accepts these bytes as a signature of a message under a context. The message is all that the source gives, and is not
/// kept.
///
/// Errors, in this order: `Context` if the context has more than 255 bytes; `Message` if the source fails.
pub fn verify<I: Source>(
    key: &VerifyingKey,
    signature: &[u8],
    context: &[u8],
    input: &mut I,
) -> Result<bool, CommandFault> {
    if context.len() > LONGEST {
        return Err(CommandFault::Context);
    }
    let mu = message_mu(key.tr(), context, input)?;
    match key.judge_mu(&mu, signature) {
        Ok(valid) => Ok(valid),
        // The signature has another length.
        Err(_) => Ok(false),
    }
}
