// Made by tools/erase of crates/mlsign_program/src/keyfile.rt. Change that, not this.
//! Files of keys that are read.

use crate::standing::*;

use crate::proved::mlsign_program::files::read_key;
use crate::proved::mlsign_program::hints::hint;
use anyhow::{Context, Error, bail};
use clap::ArgMatches;
use fips204_shake::der::{SEED_LENGTH, SetName};
use mlsign_engine::pem::Kind;
use mlsign_engine::{
    AnyKey, CommandFault, Form, KeyPair, PublicKey, SigningKey, VerifyingKey, from_beginning,
};
use rattle_std::alloc::Global;

/// The word of a call that has this name.
pub(crate) fn word<'a>(words: &ArgMatches<'a>, name: &str) -> Result<&'a str, Error> {
    match words.get_str(name) {
        Some(text) => Ok(text),
        None => bail!("the argument {name} is missing"),
    }
}

/// The set that a word names.
pub(crate) fn set_of(word: &str) -> Result<SetName, Error> {
    match word {
        "44" => Ok(SetName::MlDsa44),
        "65" => Ok(SetName::MlDsa65),
        "87" => Ok(SetName::MlDsa87),
        set => bail!("{set}: no such set"),
    }
}

/// The form of the keys' files of a call: DER with `--der`, and else PEM.
pub(crate) fn form(words: &ArgMatches<'_>) -> Form {
    if words.get_flag("der") {
        Form::Der
    } else {
        Form::Pem
    }
}

/// The form that the word with this name says.
pub(crate) fn form_of(words: &ArgMatches<'_>, name: &str) -> Result<Form, Error> {
    match word(words, name)? {
        "pem" => Ok(Form::Pem),
        "der" => Ok(Form::Der),
        "raw" => Ok(Form::Raw),
        form => bail!("{form}: no such form"),
    }
}

/// The set of a key in raw bytes: the one that the words say, or else the one whose keys are so long.
fn raw_set(words: &ArgMatches<'_>, size: usize) -> Result<SetName, Error> {
    if let Some(set) = words.get_str("set") {
        return set_of(set);
    }
    match size {
        1312 | 2560 => Ok(SetName::MlDsa44),
        1952 | 4032 => Ok(SetName::MlDsa65),
        2592 | 4896 => Ok(SetName::MlDsa87),
        0 => bail!("it is empty"),
        SEED_LENGTH => bail!("a seed belongs to every set: --set has to say which"),
        _ => bail!("no key has so many bytes"),
    }
}

/// A key's file that was read.
pub(crate) struct KeyFile<'a> {
    path: &'a str,
    form: Form,
    /// The set of raw bytes.
    set: SetName,
    /// The kind of key that is wanted of it, if it is to be of one kind.
    kind: Option<Kind>,
    bytes: Vec<u8>,
}

impl<'a> KeyFile<'a> {
    /// Reads a key's file, of which a key of this kind is wanted, or of either.
    pub(crate) fn read(
        rt: &HostRuntime,
        words: &ArgMatches<'_>,
        path: &'a str,
        kind: Option<Kind>,
    ) -> Result<KeyFile<'a>, Error> {
        Ok(KeyFile {
            path,
            form: form(words),
            set: SetName::MlDsa65,
            kind,
            bytes: read_key(rt, path)?,
        })
    }

    /// Reads a key's file that is to be converted.
    pub(crate) fn read_converted(
        rt: &HostRuntime,
        words: &ArgMatches<'_>,
        path: &'a str,
    ) -> Result<KeyFile<'a>, Error> {
        let bytes = read_key(rt, path)?;
        let form = form_of(words, "from")?;
        let set = match form {
            Form::Raw => raw_set(words, bytes.len()).context(path)?,
            _ => SetName::MlDsa65,
        };
        Ok(KeyFile {
            path,
            form,
            set,
            kind: None,
            bytes,
        })
    }

    /// The public key that it has.
    fn public(&self, alloc: Global) -> Result<PublicKey, Error> {
        let bytes = self.bytes.as_slice();
        let key = mlsign_engine::read_public_key(alloc, self.form, self.set, bytes);
        self.name(key.map_err(CommandFault::Key))
    }

    /// The private key that it has, and the public key that belongs to it.
    pub(crate) fn pair(&self, alloc: Global) -> Result<KeyPair, Error> {
        let bytes = self.bytes.as_slice();
        self.name(mlsign_engine::read_private_key(alloc, self.form, self.set, bytes))
    }

    /// The key that it has, of either kind.
    pub(crate) fn key(&self, alloc: Global) -> Result<AnyKey, Error> {
        let bytes = self.bytes.as_slice();
        self.name(mlsign_engine::read_key(alloc, self.form, self.set, bytes))
    }

    /// The private key that it has, for many messages.
    pub(crate) fn signing_key(&self, alloc: Global) -> Result<SigningKey, Error> {
        self.name(SigningKey::new(alloc, self.pair(alloc)?))
    }

    /// The public key that it has, for many messages.
    pub(crate) fn verifying_key(&self, alloc: Global) -> Result<VerifyingKey, Error> {
        self.name(VerifyingKey::new(alloc, self.public(alloc)?))
    }

    /// A result, or its fault with the name of this file, if it is about the key.
    pub(crate) fn name<T>(&self, answer: Result<T, CommandFault>) -> Result<T, Error> {
        match answer {
            Ok(value) => Ok(value),
            Err(CommandFault::Context) => Err(Error::from(CommandFault::Context)),
            Err(CommandFault::Key(fault)) => match self.hint() {
                Some(hint) => Err(Error::msg(hint).context(self.path)),
                None => Err(CommandFault::Key(fault)).context(self.path),
            },
            Err(fault) => Err(fault).context(self.path),
        }
    }

    /// What the file seems to be, if it has no key of the kind that is wanted.
    fn hint(&self) -> Option<&'static str> {
        let bytes = self.bytes.as_slice();
        match self.form {
            Form::Pem => hint(from_beginning(bytes), self.form, self.kind),
            Form::Der => hint(bytes, self.form, self.kind),
            Form::Raw => None,
        }
    }
}
