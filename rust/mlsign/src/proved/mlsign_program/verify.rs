// Made by tools/erase of crates/mlsign_program/src/verify.rt. Change that, not this.
//! Verifying messages.

use crate::standing::*;

use crate::proved::mlsign_program::commands::{
    Message, check_apart, context, fingerprint_of, has_several, name_of, open, signature_path,
};
use crate::proved::mlsign_program::files::{metadata, read_start};
use crate::proved::mlsign_program::keyfile::KeyFile;
use crate::proved::mlsign_program::process::line_of;
use crate::proved::mlsign_program::sums::verify_sums;
use crate::proved::mlsign_program::text::{about, printable};
use anyhow::{Context, Error, bail};
use base64::engine::general_purpose::STANDARD_NO_PAD;
use clap::ArgMatches;
use fips204::SetName;
use mlsign_engine::pem::Kind;
use mlsign_engine::{CommandFault, Reader, Source, VerifyingKey};
use rattle_std::alloc::Global;
use rattle_std::io;

/// A public key that a call trusts.
pub(crate) struct TrustedKey<'a> {
    path: &'a str,
    file: KeyFile<'a>,
    key: VerifyingKey,
    set: SetName,
    fingerprint: String,
    /// Whether it accepted a signature.
    accepted: bool,
}

impl TrustedKey<'_> {
    /// Notes that it accepted a signature.
    pub(crate) fn accept(&mut self) {
        self.accepted = true;
    }
}

/// How the messages of a call ended.
#[derive(Debug, Clone, Copy)]
pub(crate) struct Ends {
    /// How many were asked for.
    pub all: usize,
    /// How many are not what they have to be.
    pub invalid: usize,
    /// How many could not be looked at.
    pub failed: usize,
}

impl Ends {
    /// None is looked at yet.
    pub(crate) fn new(all: usize) -> Ends {
        Ends {
            all,
            invalid: 0,
            failed: 0,
        }
    }

    /// Counts an end. An error ends the call if there is one message, and else has a line.
    pub(crate) fn count(&mut self, rt: &HostRuntime, end: Result<bool, Error>) -> Result<(), Error> {
        match end {
            Ok(true) => {}
            Ok(false) => self.invalid = self.invalid.saturating_add(1),
            Err(error) if self.all == 1 => return Err(error),
            Err(error) => {
                let line = line_of(rt.alloc(), &error).map_err(io::Error::from)?;
                let _ = rt.eprintln(format_args!("mlsign: {line}"));
                self.failed = self.failed.saturating_add(1);
            }
        }
        Ok(())
    }

    /// The worst end.
    pub(crate) fn worst(&self) -> Result<bool, Error> {
        if self.failed > 0 {
            let (failed, all) = (self.failed, self.all);
            bail!("{failed} of {all} files could not be checked");
        }
        Ok(self.invalid == 0)
    }
}

/// Whether the signatures of all messages are valid; or with `--sums` that of a list, which is the first message, and
/// the sums of the other messages in it, or of all its files. Which are, and the fingerprints of the keys that accept
/// them, goes to standard output unless the call says `--quiet`, and which are not to standard error.
pub(crate) fn verify(rt: &HostRuntime, words: &ArgMatches<'_>) -> Result<bool, Error> {
    let messages = words
        .get_strs("message")
        .context("the argument MESSAGE is missing")?;
    let sums = words.get_flag("sums");
    if messages.len() > 1 && !sums && words.get_str("signature").is_some() {
        bail!("--signature is for one message");
    }
    if messages.len() > 1 && words.get_flag("ignore-missing") {
        bail!("--ignore-missing is for all files of a list");
    }
    let mut keys = keys_of(rt, words, messages)?;
    let keys = keys.as_mut_slice();
    if sums {
        let [list, files @ ..] = messages else {
            bail!("--sums is for a list");
        };
        return verify_sums(rt, words, keys, list, files);
    }
    let mut ends = Ends::new(messages.len());
    for message in messages {
        let end = verify_message(rt, words, keys, message);
        ends.count(rt, end)?;
    }
    tell_keys(rt, words, keys)?;
    ends.worst()
}

/// The public keys of a call: those with the fingerprint that it says, if it says one.
fn keys_of<'a>(
    rt: &HostRuntime,
    words: &ArgMatches<'a>,
    messages: &[&str],
) -> Result<Vec<TrustedKey<'a>>, Error> {
    let wanted = fingerprint(words)?;
    let paths = words
        .get_strs("public")
        .context("the option --public is missing")?;
    let mut keys = Vec::new(rt.alloc());
    for (place, path) in paths.iter().enumerate() {
        for other in paths.iter().take(place) {
            check_apart(rt, path, other)?;
        }
        check_key_apart(rt, words, path, messages)?;
        let key = key_of(rt, words, path)?;
        if wanted.is_none_or(|wanted| key.fingerprint.as_str() == wanted) {
            keys.push(key).map_err(io::Error::from)?;
        }
    }
    if keys.is_empty() {
        let wanted = wanted.unwrap_or("");
        bail!("{wanted}: no public key of this call has this fingerprint");
    }
    Ok(keys)
}

/// The fingerprint that the words say, if they say one.
fn fingerprint<'a>(words: &ArgMatches<'a>) -> Result<Option<&'a str>, Error> {
    let Some(text) = words.get_str("fingerprint") else {
        return Ok(None);
    };
    let digest = text.strip_prefix("SHA256:").unwrap_or("");
    match STANDARD_NO_PAD.decode_slice(digest.as_bytes(), &mut [0; 32]) {
        Ok(32) => Ok(Some(text)),
        // (behind a long text there is no room for the rest of a message)
        _ => Err(Error::msg("it is no fingerprint, which is SHA256: and 43 characters").context(
            text,
        )),
    }
}

/// The public key in this file.
fn key_of<'a>(
    rt: &HostRuntime,
    words: &ArgMatches<'_>,
    path: &'a str,
) -> Result<TrustedKey<'a>, Error> {
    let file = KeyFile::read(rt, words, path, Some(Kind::Public))?;
    let key = file.verifying_key(rt.alloc())?;
    let set = key.key().algorithm();
    let fingerprint = file.name(fingerprint_of(rt.alloc(), key.key()))?;
    Ok(TrustedKey {
        path,
        file,
        key,
        set,
        fingerprint,
        accepted: false,
    })
}

/// An error if a public key's file can only be read as that of a message or a signature.
fn check_key_apart(
    rt: &HostRuntime,
    words: &ArgMatches<'_>,
    public: &str,
    messages: &[&str],
) -> Result<(), Error> {
    for message in messages {
        check_apart(rt, public, message)?;
    }
    if let Some(signature) = words.get_str("signature") {
        check_apart(rt, public, signature)?;
    }
    Ok(())
}

/// Prints which keys accepted a signature.
pub(crate) fn tell_keys(
    rt: &HostRuntime,
    words: &ArgMatches<'_>,
    keys: &[TrustedKey<'_>],
) -> Result<(), Error> {
    if words.get_flag("quiet") {
        return Ok(());
    }
    for key in keys {
        if !key.accepted {
            continue;
        }
        let fingerprint = key.fingerprint.as_str();
        let path = named(rt.alloc(), has_several(words, "public"), " ", key.path, "")?;
        try_println!(rt; "key: {fingerprint}{path}").context("standard output")?;
    }
    Ok(())
}

/// Whether one of the keys accepts the signature of a message, which is noted in it, and said.
fn verify_message(
    rt: &HostRuntime,
    words: &ArgMatches<'_>,
    keys: &mut [TrustedKey<'_>],
    message: &str,
) -> Result<bool, Error> {
    let signature = read_signature(rt, words, message)?;
    let signature = signature.as_slice();
    if keys.len() > 1 && !metadata(rt, message).context(message)?.is_file() {
        return Err(about(message, "it can be read only once: give one public key"));
    }
    let shown = has_several(words, "message");
    for key in keys.iter_mut() {
        let mut input = Reader::new(open(rt, words, message)?);
        if accepts(words, key, signature, &mut input, message)? {
            key.accept();
            say_valid(rt, words, key, message, shown)?;
            return Ok(true);
        }
    }
    say_invalid(rt, keys, message, shown, signature.len())?;
    Ok(false)
}

/// The signature of a message, or of a list.
pub(crate) fn read_signature(
    rt: &HostRuntime,
    words: &ArgMatches<'_>,
    message: &str,
) -> Result<Vec<u8>, Error> {
    let path = match words.get_str("signature") {
        Some(path) => String::from_str(rt.alloc(), path).map_err(io::Error::from)?,
        None => signature_path(rt.alloc(), words, "signature", message)?,
    };
    check_apart(rt, path.as_str(), message)?;
    read_start(rt, path.as_str())
}

/// Whether a key accepts these bytes as the signature of the message with this name, which is read.
fn accepts(
    words: &ArgMatches<'_>,
    key: &TrustedKey<'_>,
    signature: &[u8],
    input: &mut Reader<Message<'_>>,
    message: &str,
) -> Result<bool, Error> {
    match verify_input(words, &key.key, signature, input) {
        Err(CommandFault::Message) => Err(input.reader.fault(message)),
        valid => key.file.name(valid),
    }
}

/// Whether a key accepts these bytes as the signature of a list that was read.
pub(crate) fn accepts_list(
    words: &ArgMatches<'_>,
    key: &TrustedKey<'_>,
    signature: &[u8],
    list: &[u8],
) -> Result<bool, Error> {
    let mut input = Reader::new(list);
    key.file
        .name(verify_input(words, &key.key, signature, &mut input))
}

/// Judges the signature of what is read, under the context that the words say.
fn verify_input<I: Source>(
    words: &ArgMatches<'_>,
    key: &VerifyingKey,
    signature: &[u8],
    input: &mut I,
) -> Result<bool, CommandFault> {
    mlsign_engine::verify(key, signature, context(words), input)
}

/// The name of a file between these texts, or nothing if it is not shown.
fn named(alloc: Global, shown: bool, front: &str, name: &str, end: &str) -> Result<String, Error> {
    if !shown {
        return Ok(String::new(alloc));
    }
    let name = printable(alloc, name).map_err(io::Error::from)?;
    Ok(try_format!(alloc; "{front}{name}{end}")?)
}

/// Says that a key accepts the signature of a message, whose name is shown if there are others.
pub(crate) fn say_valid(
    rt: &HostRuntime,
    words: &ArgMatches<'_>,
    key: &TrustedKey<'_>,
    message: &str,
    shown: bool,
) -> Result<(), Error> {
    if words.get_flag("quiet") {
        return Ok(());
    }
    let front = named(rt.alloc(), shown, "", message, ": ")?;
    let several = has_several(words, "public");
    let by = named(rt.alloc(), several, ", by ", key.path, "")?;
    try_println!(rt; "{front}valid{by}").context("standard output")
}

/// Says that no key accepts a signature of so many bytes, and what can be known of why.
pub(crate) fn say_invalid(
    rt: &HostRuntime,
    keys: &[TrustedKey<'_>],
    message: &str,
    shown: bool,
    size: usize,
) -> Result<(), Error> {
    let front = named(rt.alloc(), shown, "", message, ": ")?;
    let _ = match keys {
        [key] if key.set.signature_len() != size => {
            let (wanted, set) = (key.set.signature_len(), name_of(key.set));
            let other = other_set(size);
            rt.eprintln(format_args!(
                "mlsign: {front}the signature is invalid: it does not have the {wanted} bytes of {set}{other}"
            ))
        }
        [_] => rt.eprintln(format_args!(
            "mlsign: {front}the signature is invalid: it, the message, the context or the key is the wrong one"
        )),
        _ => rt.eprintln(format_args!(
            "mlsign: {front}the signature is invalid under each of the public keys"
        )),
    };
    Ok(())
}

/// What else is known of a signature with so many bytes.
fn other_set(size: usize) -> &'static str {
    match size {
        0 => ": it is empty",
        2420 => ", but those of ML-DSA-44",
        3309 => ", but those of ML-DSA-65",
        4627 => ", but those of ML-DSA-87",
        _ => "",
    }
}
