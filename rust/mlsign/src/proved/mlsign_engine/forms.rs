// Made by tools/erase of crates/mlsign_engine/src/forms.rt. Change that, not this.
//! Keys in files: in PEM, in DER, and in raw bytes.

use crate::standing::*;

use crate::proved::mlsign_engine::fault::{CommandFault, FileFault};
use crate::proved::mlsign_engine::keys::{AnyKey, KeyPair, PublicKey};
use crate::proved::mlsign_engine::lax::strict_form;
use crate::proved::mlsign_engine::pem::{self, Kind};
use fips204_shake::der::{
    DerFault, PrivateKey, SEED_LENGTH, SetName, read_private, read_public, write_private,
    write_public,
};
use rattle_std::alloc::{AllocError, Global};

/// How a file has a key.
#[derive(Debug, Clone, Copy, PartialEq, Eq)]
pub enum Form {
    /// The text of RFC 7468.
    Pem,
    /// The DER of RFC 9881.
    Der,
    /// The bytes of FIPS 204: a public key, a seed, or an expanded private key.
    Raw,
}

/// Which parts of a private key are written.
#[derive(Debug, Clone, Copy, PartialEq, Eq)]
pub enum Parts {
    /// Those that it has.
    Kept,
    /// Its seed.
    Seed,
    /// The expanded key.
    Expanded,
}

/// The public key that a file has in this form. A text is read in the lax form of RFC 7468 (`strict_form`). The set is that of raw bytes.
///
/// Errors: the file's first, or `Memory`. Of raw bytes that is `Der(KeyLength)`, if they are not as many as a key of
/// the parameter set has.
pub fn read_public_key(
    alloc: Global,
    form: Form,
    set: SetName,
    file: &[u8],
) -> Result<PublicKey, FileFault> {
    match form {
        Form::Pem => {
            let text = strict_form(alloc, Kind::Public, file)?;
            let der = pem::decode(alloc, Kind::Public, text.as_slice())?;
            public_of_der(alloc, der.as_slice())
        }
        Form::Der => public_of_der(alloc, file),
        Form::Raw => {
            if file.len() != set.public_key_len() {
                return Err(FileFault::Der(DerFault::KeyLength));
            }
            Ok(PublicKey::new(set, Vec::from_slice(alloc, file)?))
        }
    }
}

/// The public key of a file in DER.
fn public_of_der(alloc: Global, der: &[u8]) -> Result<PublicKey, FileFault> {
    let (algorithm, bytes) = read_public(der).map_err(FileFault::Der)?;
    Ok(PublicKey::new(algorithm, Vec::from_slice(alloc, bytes)?))
}

/// The private key that a file has in this form, which is first checked to be consistent. A text is read in the lax form of RFC 7468
/// (`strict_form`). The set is that of raw bytes, which a seed does not tell.
///
/// Errors, in this order: `Key` with the file's first fault, of raw bytes `Der(KeyLength)` alone; `Inconsistent` if the parts of the key do not
/// belong together; and `Library` or `Memory` where they arise.
pub fn read_private_key(
    alloc: Global,
    form: Form,
    set: SetName,
    file: &[u8],
) -> Result<KeyPair, CommandFault> {
    match form {
        Form::Pem => {
            let text = strict_form(alloc, Kind::Private, file)?;
            let der = pem::decode(alloc, Kind::Private, text.as_slice())?;
            let (set, key) = read_private(der.as_slice()).map_err(FileFault::Der)?;
            KeyPair::of_parts(alloc, set, key)
        }
        Form::Der => {
            let (set, key) = read_private(file).map_err(FileFault::Der)?;
            KeyPair::of_parts(alloc, set, key)
        }
        Form::Raw => KeyPair::of_parts(alloc, set, raw_parts(set, file)?),
    }
}

/// The key of either kind that a file has in this form: the public one, or else the private one.
///
/// Errors: of a text that has no key of another kind, its first as a public key's; else those of `read_private_key`.
pub fn read_key(
    alloc: Global,
    form: Form,
    set: SetName,
    file: &[u8],
) -> Result<AnyKey, CommandFault> {
    match read_public_key(alloc, form, set, file) {
        Ok(key) => Ok(AnyKey::Public(key)),
        Err(fault) => {
            if form == Form::Pem && fault != FileFault::OtherKind {
                return Err(CommandFault::Key(fault));
            }
            Ok(AnyKey::Private(read_private_key(alloc, form, set, file)?))
        }
    }
}

/// The private key with these bytes.
fn raw_parts(set: SetName, bytes: &[u8]) -> Result<PrivateKey<'_>, FileFault> {
    if bytes.len() == SEED_LENGTH {
        return Ok(PrivateKey::Seed(bytes));
    }
    if bytes.len() == set.private_key_len() {
        return Ok(PrivateKey::Expanded(bytes));
    }
    Err(FileFault::Der(DerFault::KeyLength))
}

/// The file in DER of the public key with these bytes.
fn public_der(alloc: Global, algorithm: SetName, bytes: &[u8]) -> Result<Vec<u8>, AllocError> {
    let mut der = try_vec![alloc; 0; algorithm.public_key_len() + 22]?;
    write_public(algorithm, bytes, der.as_mut_slice());
    Ok(der)
}

/// The file in this form of the public key with these bytes.
pub(crate) fn public_file(
    alloc: Global,
    form: Form,
    algorithm: SetName,
    bytes: &[u8],
) -> Result<Vec<u8>, AllocError> {
    if form == Form::Raw {
        return Vec::from_slice(alloc, bytes);
    }
    let der = public_der(alloc, algorithm, bytes)?;
    if form == Form::Der {
        return Ok(der);
    }
    pem::encode(alloc, Kind::Public, der.as_slice())
}

/// The bytes of a private key of one part.
fn raw_of(alloc: Global, key: PrivateKey<'_>) -> Result<Vec<u8>, AllocError> {
    match key {
        PrivateKey::Seed(bytes) | PrivateKey::Expanded(bytes) => Vec::from_slice(alloc, bytes),
        PrivateKey::Both { .. } => unreachable!(),
    }
}

/// How many bytes the file in DER of a private key has.
fn private_file_len(algorithm: SetName, key: PrivateKey<'_>) -> usize {
    let size = algorithm.private_key_len();
    match key {
        PrivateKey::Seed(_) => 54,
        PrivateKey::Expanded(_) => size + 28,
        PrivateKey::Both { .. } => size + 66,
    }
}

/// The file in DER of a private key.
fn private_der(
    alloc: Global,
    algorithm: SetName,
    key: PrivateKey<'_>,
) -> Result<Vec<u8>, AllocError> {
    let mut der = try_vec![alloc; 0; private_file_len(algorithm, key)]?;
    write_private(algorithm, key, der.as_mut_slice());
    Ok(der)
}

/// The file in this form of a private key, which has one part if they are raw bytes.
pub(crate) fn private_file(
    alloc: Global,
    form: Form,
    algorithm: SetName,
    key: PrivateKey<'_>,
) -> Result<Vec<u8>, AllocError> {
    if form == Form::Raw {
        return raw_of(alloc, key);
    }
    let der = private_der(alloc, algorithm, key)?;
    if form == Form::Der {
        return Ok(der);
    }
    pem::encode(alloc, Kind::Private, der.as_slice())
}

impl PublicKey {
    /// Its file in this form.
    ///
    /// Errors: `Memory`.
    pub fn file(&self, alloc: Global, form: Form) -> Result<Vec<u8>, CommandFault> {
        Ok(public_file(alloc, form, self.algorithm(), self.bytes())?)
    }
}

impl KeyPair {
    /// The file of the private key in this form, with these parts.
    ///
    /// Errors: `NoSeed` if it has no seed, and the seed is wanted; `TwoParts` if raw bytes are wanted of both parts; `Memory`.
    pub fn file(&self, alloc: Global, form: Form, parts: Parts) -> Result<Vec<u8>, CommandFault> {
        let chosen = chosen(form, parts, self.parts(), self.private())?;
        Ok(private_file(alloc, form, self.algorithm(), chosen)?)
    }
}

/// The private key that is written of one with this expanded key.
fn chosen<'a>(
    form: Form,
    parts: Parts,
    key: PrivateKey<'a>,
    expanded: &'a [u8],
) -> Result<PrivateKey<'a>, CommandFault> {
    match parts {
        Parts::Expanded => Ok(PrivateKey::Expanded(expanded)),
        Parts::Seed => match key {
            PrivateKey::Seed(seed) | PrivateKey::Both { seed, .. } => Ok(PrivateKey::Seed(seed)),
            PrivateKey::Expanded(_) => Err(CommandFault::NoSeed),
        },
        Parts::Kept => match key {
            PrivateKey::Both { .. } if form == Form::Raw => Err(CommandFault::TwoParts),
            _ => Ok(key),
        },
    }
}
