// Made by tools/erase of crates/mlsign_engine/src/prepared.rt. Change that, not this.
//! Keys that are prepared once, for many messages.

use crate::standing::*;

use crate::proved::mlsign_engine::fault::CommandFault;
use crate::proved::mlsign_engine::keys::{KeyPair, PublicKey};
use fips204_shake::{AnySet, Input, Refusal, SetName};
use rattle_std::alloc::Global;

/// A private key with its matrix, which signs.
pub struct SigningKey {
    pair: KeyPair,
    prepared: Vec<u8>,
}

impl SigningKey {
    /// Prepares a private key.
    ///
    /// Errors: `Memory`.
    pub fn new(alloc: Global, pair: KeyPair) -> Result<SigningKey, CommandFault> {
        let set = pair.algorithm();
        let mut prepared = try_vec![alloc; 0; set.prepared_private_key_len()]?;
        let room = prepared.as_mut_slice();
        AnySet::prepare_private_key(set, pair.private(), room).unwrap();
        Ok(SigningKey { pair, prepared })
    }

    /// Its parameter set.
    pub fn algorithm(&self) -> SetName {
        self.pair.algorithm()
    }

    /// The hash `tr` that it has (FIPS 204, Algorithm 24). It is consistent.
    pub(crate) fn tr(&self) -> [u8; 64] {
        tr_of(self.pair.private())
    }

    /// Signs the hash mu of a message.
    pub(crate) fn sign_mu(
        &self,
        random: &[u8; 32],
        mu: &[u8; 64],
        signature: &mut [u8],
    ) -> Result<(), Refusal> {
        let set = self.pair.algorithm();
        let prepared = self.prepared.as_slice();
        AnySet::sign_prepared(set, prepared, random, &Input::Mu(mu), signature)
    }
}

/// The hash `tr` in the bytes of a private key.
fn tr_of(private: &[u8]) -> [u8; 64] {
    let mut tr = [0; 64];
    tr.copy_from_slice(&private[64..128]);
    tr
}

/// A public key with its hash and its matrix, which verifies.
pub struct VerifyingKey {
    key: PublicKey,
    tr: [u8; 64],
    prepared: Vec<u8>,
}

impl VerifyingKey {
    /// Prepares a public key.
    ///
    /// Errors: `Library` with `SamplingLimit` if rejection sampling of the matrix reaches its limit; `Memory`.
    pub fn new(alloc: Global, key: PublicKey) -> Result<VerifyingKey, CommandFault> {
        let set = key.algorithm();
        let mut prepared = try_vec![alloc; 0; set.prepared_public_key_len()]?;
        let room = prepared.as_mut_slice();
        AnySet::prepare_public_key(set, key.bytes(), room)?;
        Ok(VerifyingKey {
            tr: key.hash(),
            key,
            prepared,
        })
    }

    /// The key.
    pub fn key(&self) -> &PublicKey {
        &self.key
    }

    /// The hash `tr` of the key's bytes.
    pub(crate) fn tr(&self) -> &[u8; 64] {
        &self.tr
    }

    /// Whether the key accepts these bytes as a signature of the hash mu of a message.
    pub(crate) fn judge_mu(&self, mu: &[u8; 64], signature: &[u8]) -> Result<bool, Refusal> {
        let set = self.key.algorithm();
        let prepared = self.prepared.as_slice();
        AnySet::verify_prepared(set, prepared, &Input::Mu(mu), signature)
    }
}
