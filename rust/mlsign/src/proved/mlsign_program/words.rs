// Made by tools/erase of crates/mlsign_program/src/words.rt. Change that, not this.
//! The words of a call.

use crate::standing::*;

use clap::{Arg, ArgAction, Command, arg};
use rattle_std::alloc::{AllocError, Global};

/// The command line of the program.
pub(crate) fn mlsign<'a>(alloc: Global) -> Result<Command<'a>, AllocError> {
    Command::new(alloc, "mlsign")
        .about("Signs and verifies files with ML-DSA (FIPS 204)")
        .version("0.2.0")
        .bin_name("mlsign")?
        .no_binary_name(true)
        .after_help(STATUSES)
        .subcommand_required(true)
        .subcommand(keygen(alloc)?)?
        .subcommand(public(alloc)?)?
        .subcommand(sign(alloc)?)?
        .subcommand(verify(alloc)?)?
        .subcommand(show(alloc)?)?
        .subcommand(convert(alloc)?)
}

fn keygen<'a>(alloc: Global) -> Result<Command<'a>, AllocError> {
    let set = arg!(in alloc; --set <SET> "The parameter set")
        .value_parser(SETS.as_slice())
        .default_value("65");
    let private = arg!(in alloc; -k --private <FILE> "Where the private key goes");
    Command::new(alloc, "keygen")
        .about("Makes a pair of keys")
        .arg(set)?
        .arg(private.required(true))?
        .arg(arg!(in alloc; -p --public <FILE> "Where the public key goes").required(true))?
        .arg(der(alloc))?
        .arg(force(alloc))
}

fn public<'a>(alloc: Global) -> Result<Command<'a>, AllocError> {
    Command::new(alloc, "public")
        .about("Writes the public key of a private one")
        .arg(arg!(in alloc; -k --private <FILE> "The private key").required(true))?
        .arg(arg!(in alloc; -p --public <FILE> "Where the public key goes").required(true))?
        .arg(der(alloc))?
        .arg(force(alloc))
}

fn sign<'a>(alloc: Global) -> Result<Command<'a>, AllocError> {
    let deterministic =
        arg!(in alloc; --deterministic "Sign without random bytes: always the same signature");
    Command::new(alloc, "sign")
        .about("Signs messages")
        .arg(arg!(in alloc; -k --private <FILE> "The private key").required(true))?
        .arg(der(alloc))?
        .arg(context(alloc))?
        .arg(deterministic)?
        .arg(arg!(in alloc; -o --out <FILE> "Where the signature goes [default: MESSAGE.sig]"))?
        .arg(force(alloc).help("Overwrite an existing file that is no signature"))?
        .arg(quiet(alloc))?
        .arg(messages(alloc))
}

fn verify<'a>(alloc: Global) -> Result<Command<'a>, AllocError> {
    let public = arg!(in alloc; -p --public <FILE> "The public key; repeatable: any may match");
    let fingerprint =
        arg!(in alloc; --fingerprint <TEXT> "Take only a public key with this fingerprint");
    let sums =
        arg!(in alloc; --sums "The first message is a list of sha256sum: check the others by it, or all in it");
    let missing = arg!(in alloc; --"ignore-missing" "Leave out files of the list that are missing");
    Command::new(alloc, "verify")
        .about("Verifies signatures of messages")
        .after_help(STATUSES)
        .arg(public.required(true).action(ArgAction::Append))?
        .arg(fingerprint)?
        .arg(der(alloc))?
        .arg(context(alloc))?
        .arg(arg!(in alloc; -s --signature <FILE> "The signature, if not MESSAGE.sig"))?
        .arg(sums)?
        .arg(missing.requires_arg("sums")?)?
        .arg(quiet(alloc))?
        .arg(messages(alloc))
}

fn show<'a>(alloc: Global) -> Result<Command<'a>, AllocError> {
    Command::new(alloc, "show")
        .about("Says what a key's file is: its kind, its set, the fingerprint of its public key")
        .arg(der(alloc))?
        .arg(arg!(in alloc; file: <FILE> "The file of a key"))
}

fn convert<'a>(alloc: Global) -> Result<Command<'a>, AllocError> {
    let from = arg!(in alloc; --from <FORM> "The form of the key that is read").default_value(
        "pem",
    );
    let to = arg!(in alloc; --to <FORM> "The form of the key that is written").default_value("pem");
    let set = arg!(in alloc; --set <SET> "The parameter set of raw bytes, if they are a seed");
    let parts = arg!(in alloc; --parts <PARTS> "Parts of the private key to write [default: all]");
    Command::new(alloc, "convert")
        .about("Writes a key in another form")
        .arg(from.value_parser(FORMS.as_slice()))?
        .arg(to.value_parser(FORMS.as_slice()))?
        .arg(set.value_parser(SETS.as_slice()))?
        .arg(parts.value_parser(["seed", "expanded"].as_slice()))?
        .arg(arg!(in alloc; -o --out <FILE> "Where the key goes").required(true))?
        .arg(force(alloc))?
        .arg(arg!(in alloc; file: <FILE> "The file of a key"))
}

/// What the exit status says.
const STATUSES: &str =
    "Exit status: 0 if done, or all is valid; 1 if a signature or a sum is invalid; 2 for anything else";

/// The words for parameter sets.
const SETS: [&str; 3] = ["44", "65", "87"];

/// The words for the forms of a key.
const FORMS: [&str; 3] = ["pem", "der", "raw"];

fn context<'a>(alloc: Global) -> Arg<'a> {
    arg!(in alloc; -c --context <TEXT> "What the message is signed for, at most 255 bytes")
        .default_value("")
        .hide_default_value(true)
        .allow_hyphen_values(true)
}

fn der<'a>(alloc: Global) -> Arg<'a> {
    arg!(in alloc; --der "Keys are in DER, and not in PEM")
}

fn force<'a>(alloc: Global) -> Arg<'a> {
    arg!(in alloc; -f --force "Overwrite an existing file")
}

fn quiet<'a>(alloc: Global) -> Arg<'a> {
    arg!(in alloc; -q --quiet "Print nothing but errors")
}

fn messages<'a>(alloc: Global) -> Arg<'a> {
    arg!(in alloc; message: <MESSAGE> ... "The messages, or - for standard input")
}
