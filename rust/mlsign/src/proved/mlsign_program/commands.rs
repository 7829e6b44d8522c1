// Made by tools/erase of crates/mlsign_program/src/commands.rt. Change that, not this.
//! The commands over files.

use crate::standing::*;

use crate::proved::mlsign_program::files::{STANDARD, metadata, note_read};
use crate::proved::mlsign_program::keyfile::{KeyFile, form, form_of, set_of, word};
use crate::proved::mlsign_program::places::{Content, FileId, Output, Target, write_pair};
use crate::proved::mlsign_program::progress::Progress;
use crate::proved::mlsign_program::text::about;
use anyhow::{Context, Error, bail};
use base64::engine::general_purpose::STANDARD_NO_PAD;
use clap::ArgMatches;
use either::Either;
use fips204::SetName;
use mlsign_engine::pem::Kind;
use mlsign_engine::{
    AnyKey, CommandFault, Form, KeyFiles, KeyPair, Parts, PublicKey, Reader, SigningKey, Source,
};
use sha2::{Digest, Sha256};
use rattle_std::alloc::Global;
use rattle_std::fs::{File, OpenFile};
use rattle_std::io::{self, IsTerminal, Stdin};
use rattle_std::random::RandomSource;

/// A message that is read.
pub(crate) type Message<'a> = Progress<'a, Either<File, Stdin>>;

/// Random bytes of the system.
fn random(rt: &HostRuntime) -> Result<[u8; 32], Error> {
    let mut bytes = [0; 32];
    rt.fill_bytes(&mut bytes)
        .context("the system gave no random bytes")?;
    Ok(bytes)
}

/// The file that the word with this name says, for this.
fn target<'a>(words: &ArgMatches<'a>, name: &str, content: Content) -> Result<Target<'a>, Error> {
    Ok(Target {
        path: word(words, name)?,
        content,
        force: words.get_flag("force"),
    })
}

/// Makes a pair of keys and writes both files; after an error neither.
pub(crate) fn keygen(rt: &HostRuntime, words: &ArgMatches<'_>) -> Result<(), Error> {
    let private = target(words, "private", Content::PrivateKey)?;
    let public = target(words, "public", Content::PublicKey)?;
    let private = Output::find(rt, private, &[])?;
    let public = Output::find(rt, public, &[])?;
    if private.is_same(rt, &public) {
        let path = word(words, "private")?;
        return Err(about(
            path,
            "the private and the public key cannot have the same file",
        ));
    }
    let keys = make_keys(rt.alloc(), words, &random(rt)?)?;
    write_pair(rt, &public, &private, &keys)
}

/// Makes the pair of keys of this seed at the parameter set that the words say.
fn make_keys(alloc: Global, words: &ArgMatches<'_>, seed: &[u8; 32]) -> Result<KeyFiles, Error> {
    let algorithm = set_of(word(words, "set")?)?;
    Ok(mlsign_engine::keygen(alloc, form(words), algorithm, seed)?)
}

/// Writes the public key of a private one.
pub(crate) fn public(rt: &HostRuntime, words: &ArgMatches<'_>) -> Result<(), Error> {
    let private = word(words, "private")?;
    let output = Output::find(rt, target(words, "public", Content::PublicKey)?, &[])?;
    let key = KeyFile::read(rt, words, private, Some(Kind::Private))?;
    let public = key.name(key.pair(rt.alloc())?.public_key(rt.alloc()))?;
    let file = key.name(public.file(rt.alloc(), form(words)))?;
    output.write(rt, file.as_slice())?;
    note_read(rt, private);
    Ok(())
}

/// Whether the call has more than one word with this name.
pub(crate) fn has_several(words: &ArgMatches<'_>, name: &str) -> bool {
    words.get_strs(name).is_some_and(|found| found.len() > 1)
}

/// Opens a message: a file, or standard input under the name `-`. A bar is shown if standard error is a terminal, unless the call
/// says `--quiet`.
pub(crate) fn open<'a>(
    rt: &'a HostRuntime,
    words: &ArgMatches<'_>,
    path: &str,
) -> Result<Message<'a>, Error> {
    let shows = rt.stderr().is_terminal() && !words.get_flag("quiet");
    if path == STANDARD {
        return Ok(Progress::new(rt, Either::Right(rt.stdin()), shows, None));
    }
    let file = File::open(path).context(path)?;
    let found = file.metadata().context(path)?;
    if found.is_dir() {
        return Err(about(path, "it is a directory"));
    }
    let size = found.is_file().then_some(found.len());
    Ok(Progress::new(rt, Either::Left(file), shows, size))
}

/// An error if two names stand for one pipe or device, since each of its bytes can be read only once.
pub(crate) fn check_apart(rt: &HostRuntime, one: &str, other: &str) -> Result<(), Error> {
    if one == STANDARD && other == STANDARD {
        bail!("{STANDARD}: standard input can be only one of the files");
    }
    let (Ok(first), Ok(second)) = (metadata(rt, one), metadata(rt, other)) else {
        return Ok(());
    };
    if !first.is_file() && FileId::of(&first) == FileId::of(&second) {
        return Err(about(
            one,
            format_args!("it is the same pipe or device as {other}"),
        ));
    }
    Ok(())
}

/// Which files these messages are, as far as the system tells: it may have no name for standard input.
fn ids_of(rt: &HostRuntime, messages: &[&str]) -> Result<Vec<FileId>, Error> {
    let mut ids = Vec::new(rt.alloc());
    for message in messages {
        match metadata(rt, message) {
            Ok(found) => ids.push(FileId::of(&found)).map_err(io::Error::from)?,
            Err(_) if *message == STANDARD => {}
            Err(error) => return Err(error).context(*message),
        }
    }
    Ok(ids)
}

/// The file that belongs to a message: the one that the word with this name says, or else the message's name and `.sig`.
pub(crate) fn signature_path(
    alloc: Global,
    words: &ArgMatches<'_>,
    name: &str,
    message: &str,
) -> Result<String, Error> {
    let path = match words.get_str(name) {
        Some(_) if has_several(words, "message") => bail!("--{name} is for one message"),
        Some(path) => String::from_str(alloc, path),
        None if message == STANDARD => bail!(
            "--{name} has to name the signature of standard input"
        ),
        None => Ok(try_format!(alloc; "{message}.sig")?),
    };
    Ok(path.map_err(io::Error::from)?)
}

/// Signs messages. Nothing is signed if a signature cannot go to its place.
pub(crate) fn sign(rt: &HostRuntime, words: &ArgMatches<'_>) -> Result<(), Error> {
    let private = word(words, "private")?;
    let messages = words
        .get_strs("message")
        .context("the argument MESSAGE is missing")?;
    let ids = ids_of(rt, messages)?;
    let ids = ids.as_slice();
    for id in ids_of(rt, &[private])? {
        if ids.contains(&id) {
            return Err(about(
                private,
                "the message is the private key itself, which is never signed",
            ));
        }
    }
    for message in messages {
        check_apart(rt, private, message)?;
    }
    let key = KeyFile::read(rt, words, private, Some(Kind::Private))?;
    if messages.len() > 1 {
        check_signatures(rt, words, messages, ids)?;
    }
    let signing = key.signing_key(rt.alloc())?;
    for message in messages {
        sign_message(rt, words, &key, &signing, message, ids)?;
    }
    note_read(rt, private);
    Ok(())
}

/// An error if a signature of several messages cannot go to its place, or has the same file as another message's.
fn check_signatures(
    rt: &HostRuntime,
    words: &ArgMatches<'_>,
    messages: &[&str],
    ids: &[FileId],
) -> Result<(), Error> {
    let mut replaced = Vec::new(rt.alloc());
    for (message, id) in messages.iter().zip(ids) {
        let path = signature_path(rt.alloc(), words, "out", message)?;
        let output = Output::find(rt, signature_at(words, path.as_str()), ids)?;
        let Some(file) = output.replaced() else {
            continue;
        };
        for (other_file, other_id, other) in &replaced {
            // (a message that the call names twice is signed twice)
            if *other_file == file && *other_id != *id {
                return Err(about(
                    path.as_str(),
                    format_args!("it is the same file as the signature of {other}"),
                ));
            }
        }
        replaced
            .push((file, *id, *message))
            .map_err(io::Error::from)?;
    }
    Ok(())
}

/// The file of a signature.
fn signature_at<'a>(words: &ArgMatches<'_>, path: &'a str) -> Target<'a> {
    Target {
        path,
        content: Content::Signature,
        force: words.get_flag("force"),
    }
}

/// Signs a message with the key of this file.
fn sign_message(
    rt: &HostRuntime,
    words: &ArgMatches<'_>,
    file: &KeyFile<'_>,
    key: &SigningKey,
    message: &str,
    ids: &[FileId],
) -> Result<(), Error> {
    let mut input = Reader::new(open(rt, words, message)?);
    let path = signature_path(rt.alloc(), words, "out", message)?;
    let output = Output::find(rt, signature_at(words, path.as_str()), ids)?;
    let random = random_of(rt, words)?;
    let signature = match sign_input(rt.alloc(), words, key, &random, &mut input) {
        Err(CommandFault::Message) => return Err(input.reader.fault(message)),
        signature => file.name(signature)?,
    };
    output.write(rt, signature.as_slice())
}

/// The random bytes of a signature: zeros for a deterministic one.
fn random_of(rt: &HostRuntime, words: &ArgMatches<'_>) -> Result<[u8; 32], Error> {
    if words.get_flag("deterministic") {
        return Ok([0; 32]);
    }
    random(rt)
}

/// The context that the words say.
pub(crate) fn context<'a>(words: &ArgMatches<'a>) -> &'a [u8] {
    words.get_str("context").unwrap_or("").as_bytes()
}

/// Signs what is read, under the context that the words say.
fn sign_input<I: Source>(
    alloc: Global,
    words: &ArgMatches<'_>,
    key: &SigningKey,
    random: &[u8; 32],
    input: &mut I,
) -> Result<Vec<u8>, CommandFault> {
    mlsign_engine::sign(alloc, key, random, context(words), input)
}

/// Prints what the file of a key is.
pub(crate) fn show(rt: &HostRuntime, words: &ArgMatches<'_>) -> Result<(), Error> {
    let file = word(words, "file")?;
    let key = KeyFile::read(rt, words, file, None)?;
    let (kind, public) = match key.key(rt.alloc())? {
        AnyKey::Public(public) => ("public key", public),
        AnyKey::Private(pair) => ("private key", key.name(pair.public_key(rt.alloc()))?),
    };
    let fingerprint = key.name(fingerprint_of(rt.alloc(), &public))?;
    let set = name_of(public.algorithm());
    let hash = hex::encode(rt.alloc(), &public.hash()).map_err(io::Error::from)?;
    try_println!(rt;
        "kind: {kind}\nset: {set}\nfingerprint: {fingerprint}\nhash of the public key: {hash}"
    ).context("standard output")
}

/// Writes a key in another form.
pub(crate) fn convert(rt: &HostRuntime, words: &ArgMatches<'_>) -> Result<(), Error> {
    let path = word(words, "file")?;
    let key = KeyFile::read_converted(rt, words, path)?;
    match key.key(rt.alloc())? {
        AnyKey::Public(public) => {
            let output = Output::find(rt, target(words, "out", Content::PublicKey)?, &[])?;
            output.write(
                rt,
                public_file(rt.alloc(), words, &key, &public)?.as_slice(),
            )
        }
        AnyKey::Private(pair) => {
            let output = Output::find(rt, target(words, "out", Content::PrivateKey)?, &[])?;
            output.write(rt, private_file(rt.alloc(), words, &key, &pair)?.as_slice())?;
            note_read(rt, path);
            Ok(())
        }
    }
}

/// The file of this public key of a file, in the form that the words say.
fn public_file(
    alloc: Global,
    words: &ArgMatches<'_>,
    file: &KeyFile<'_>,
    key: &PublicKey,
) -> Result<Vec<u8>, Error> {
    if words.get_str("parts").is_some() {
        bail!("--parts is for private keys");
    }
    file.name(key.file(alloc, form_of(words, "to")?))
}

/// The file of this private key of a file, in the form that the words say, with the parts that they say.
fn private_file(
    alloc: Global,
    words: &ArgMatches<'_>,
    file: &KeyFile<'_>,
    pair: &KeyPair,
) -> Result<Vec<u8>, Error> {
    let (form, parts) = (form_of(words, "to")?, parts(words)?);
    file.name(pair.file(alloc, form, parts))
}

/// Which parts of a private key the words want.
fn parts(words: &ArgMatches<'_>) -> Result<Parts, Error> {
    match words.get_str("parts") {
        None => Ok(Parts::Kept),
        Some("seed") => Ok(Parts::Seed),
        Some("expanded") => Ok(Parts::Expanded),
        Some(parts) => bail!("{parts}: no such parts"),
    }
}

/// The fingerprint of a public key: `SHA256:` and SHA-256 of its DER, in base64 without padding.
pub(crate) fn fingerprint_of(alloc: Global, key: &PublicKey) -> Result<String, CommandFault> {
    let der = key.file(alloc, Form::Der)?;
    let mut text = String::from_str(alloc, "SHA256:")?;
    let digest = Sha256::digest(der.as_slice());
    text.push_str(STANDARD_NO_PAD.encode(alloc, digest.as_slice())?.as_str())?;
    Ok(text)
}

/// The name of a parameter set.
pub(crate) fn name_of(algorithm: SetName) -> &'static str {
    match algorithm {
        SetName::MlDsa44 => "ML-DSA-44",
        SetName::MlDsa65 => "ML-DSA-65",
        SetName::MlDsa87 => "ML-DSA-87",
    }
}
