// Made by tools/erase of crates/mlsign_engine/src/keys.rt. Change that, not this.
//! Keys as values.

use crate::standing::*;

use crate::proved::mlsign_engine::fault::CommandFault;
use fips204::xof::hash;
use fips204_shake::bytes::array_of;
use fips204_shake::der::PrivateKey;
use fips204_shake::streams::Shake256Stream;
use fips204_shake::{AnySet, SetName};
use rattle_std::alloc::Global;

/// A public key.
pub struct PublicKey {
    algorithm: SetName,
    bytes: Vec<u8>,
}

impl PublicKey {
    /// The public key with these bytes.
    pub(crate) fn new(algorithm: SetName, bytes: Vec<u8>) -> PublicKey {
        PublicKey { algorithm, bytes }
    }

    /// Its parameter set.
    pub fn algorithm(&self) -> SetName {
        self.algorithm
    }

    /// Its bytes (FIPS 204, Algorithm 22).
    pub fn bytes(&self) -> &[u8] {
        self.bytes.as_slice()
    }

    /// The hash of its bytes, which FIPS 204 calls `tr`: SHAKE256. That of a private key is the same.
    pub fn hash(&self) -> [u8; 64] {
        hash::<Shake256Stream, 64>(&[self.bytes()])
    }
}

/// What a file has of a private key whose bytes are known.
#[derive(Debug, Clone, Copy, PartialEq, Eq)]
pub(crate) enum Held {
    /// Its seed.
    Seed([u8; 32]),
    /// The bytes.
    Expanded,
    /// Both.
    Both([u8; 32]),
}

/// A private key that is consistent, and the public key that belongs to it.
pub struct KeyPair {
    algorithm: SetName,
    held: Held,
    public: Vec<u8>,
    private: Vec<u8>,
}

impl KeyPair {
    /// The pair of a file's private key, if that is consistent.
    pub(crate) fn of_parts(
        alloc: Global,
        set: SetName,
        key: PrivateKey<'_>,
    ) -> Result<KeyPair, CommandFault> {
        match key {
            PrivateKey::Seed(seed) => {
                let (public, private) = generated(alloc, set, seed)?;
                Ok(KeyPair {
                    algorithm: set,
                    held: Held::Seed(*array_of(seed)),
                    public,
                    private,
                })
            }
            PrivateKey::Expanded(expanded) => Ok(KeyPair {
                algorithm: set,
                held: Held::Expanded,
                public: derived(alloc, set, expanded)?,
                private: Vec::from_slice(alloc, expanded)?,
            }),
            PrivateKey::Both { seed, expanded } => {
                let (public, private) = generated(alloc, set, seed)?;
                if private.as_slice() != expanded {
                    return Err(CommandFault::Inconsistent);
                }
                Ok(KeyPair {
                    algorithm: set,
                    held: Held::Both(*array_of(seed)),
                    public,
                    private,
                })
            }
        }
    }

    /// What a file has of it.
    pub(crate) fn parts(&self) -> PrivateKey<'_> {
        let private = self.private.as_slice();
        match &self.held {
            Held::Seed(seed) => PrivateKey::Seed(seed.as_slice()),
            Held::Expanded => PrivateKey::Expanded(private),
            Held::Both(seed) => PrivateKey::Both {
                seed: seed.as_slice(),
                expanded: private,
            },
        }
    }

    /// The parameter set of both keys.
    pub fn algorithm(&self) -> SetName {
        self.algorithm
    }

    /// The bytes of the private key (FIPS 204, Algorithm 24).
    pub(crate) fn private(&self) -> &[u8] {
        self.private.as_slice()
    }

    /// The bytes of the public key.
    pub(crate) fn public(&self) -> &[u8] {
        self.public.as_slice()
    }

    /// The public key.
    ///
    /// Errors: `Memory`.
    pub fn public_key(&self, alloc: Global) -> Result<PublicKey, CommandFault> {
        let bytes = Vec::from_slice(alloc, self.public())?;
        Ok(PublicKey::new(self.algorithm(), bytes))
    }
}

/// A key of either kind.
pub enum AnyKey {
    /// A public key.
    Public(PublicKey),
    /// A private key, which is consistent.
    Private(KeyPair),
}

/// The bytes of both keys of a seed.
fn generated(alloc: Global, set: SetName, seed: &[u8]) -> Result<(Vec<u8>, Vec<u8>), CommandFault> {
    let seed = array_of(seed);
    let mut public = try_vec![alloc; 0; set.public_key_len()]?;
    let mut private = try_vec![alloc; 0; set.private_key_len()]?;
    let first = public.as_mut_slice();
    let second = private.as_mut_slice();
    AnySet::keygen(set, &seed, first, second)?;
    Ok((public, private))
}

/// The bytes of the public key that belongs to an expanded key, if that is consistent.
fn derived(alloc: Global, set: SetName, expanded: &[u8]) -> Result<Vec<u8>, CommandFault> {
    check_expanded(set, expanded)?;
    let mut public = try_vec![alloc; 0; set.public_key_len()]?;
    let bytes = public.as_mut_slice();
    AnySet::public_key(set, expanded, bytes).unwrap();
    Ok(public)
}

/// Does nothing if an expanded key is consistent.
fn check_expanded(set: SetName, expanded: &[u8]) -> Result<(), CommandFault> {
    if AnySet::check_private_key(set, expanded).is_err() {
        return Err(CommandFault::Inconsistent);
    }
    if !AnySet::is_pair(set, expanded)? {
        return Err(CommandFault::Inconsistent);
    }
    Ok(())
}
