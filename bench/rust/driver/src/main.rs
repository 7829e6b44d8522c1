//! The command line of `mldsa` over the Rust crate fips204: `driver sha2 COMMAND SET`, with the same lines on standard
//! input, the same output and the same status, for input without a fault.

use sha3::Shake256;
use sha3::digest::{ExtendableOutput, Update, XofReader};
use std::io::{self, BufRead, BufReader, StdinLock, Write};
use std::process::ExitCode;

/// The value of a hex digit of either case.
fn digit(character: u8) -> Option<u8> {
    match character {
        b'0'..=b'9' => Some(character - b'0'),
        b'a'..=b'f' => Some(character - b'a' + 10),
        b'A'..=b'F' => Some(character - b'A' + 10),
        _ => None,
    }
}

/// The lines of an input.
struct Lines(BufReader<StdinLock<'static>>);

impl Lines {
    /// The bytes of the next line of hex.
    fn bytes(&mut self) -> Vec<u8> {
        let mut line = Vec::new();
        self.0.read_until(b'\n', &mut line).expect("input that can be read");
        line.truncate(line.len() - 1);
        let bytes = line.chunks_exact(2).map(|pair| Some(digit(pair[0])? << 4 | digit(pair[1])?));
        bytes.collect::<Option<_>>().expect("hex")
    }

    /// The next line's bytes, of a known number.
    fn array<const N: usize>(&mut self) -> [u8; N] {
        self.bytes().try_into().expect("a line of the wanted length")
    }
}

/// Adds a line that spells these bytes in lower case hex.
fn add_line(text: &mut Vec<u8>, bytes: &[u8]) {
    const DIGITS: &[u8; 16] = b"0123456789abcdef";
    text.reserve(2 * bytes.len() + 1);
    for byte in bytes {
        text.push(DIGITS[usize::from(byte >> 4)]);
        text.push(DIGITS[usize::from(byte & 15)]);
    }
    text.push(b'\n');
}

/// Adds a line for a verdict, and gives it.
fn add_verdict(text: &mut Vec<u8>, yes: bool) -> bool {
    text.extend_from_slice(if yes { b"yes\n" } else { b"no\n" });
    yes
}

/// The commands at a parameter set, by the crate's public traits: what each writes, and whether no verdict is `no`. The
/// crate keeps a public key's hash to itself, so `id` makes it of the key's bytes.
macro_rules! set {
    ($set:ident) => {
        fn $set(command: &str, lines: &mut Lines) -> Result<(Vec<u8>, bool), &'static str> {
            use fips204::$set::{KG, PrivateKey, PublicKey};
            use fips204::traits::{KeyGen, SerDes, Signer, Verifier};

            let mut text = Vec::new();
            let mut good = true;
            match command {
                "id" => {
                    let bytes = PublicKey::try_from_bytes(lines.array())?.into_bytes();
                    let mut hasher = Shake256::default();
                    hasher.update(&bytes);
                    let mut tr = [0; 64];
                    hasher.finalize_xof().read(&mut tr);
                    add_line(&mut text, &bytes);
                    add_line(&mut text, &tr);
                }
                "keygen" => {
                    let (public, private) = KG::keygen_from_seed(&lines.array());
                    add_line(&mut text, &public.into_bytes());
                    add_line(&mut text, &private.into_bytes());
                }
                "sign" => {
                    let (key, random) = (PrivateKey::try_from_bytes(lines.array())?, lines.array());
                    let (context, message) = (lines.bytes(), lines.bytes());
                    add_line(&mut text, &key.try_sign_with_seed(&random, &message, &context)?);
                }
                "verify" => {
                    let (key, signature) = (PublicKey::try_from_bytes(lines.array())?, lines.array());
                    let (context, message) = (lines.bytes(), lines.bytes());
                    good = add_verdict(&mut text, key.verify(&message, &signature, &context));
                }
                "check" => {
                    let (public, private) = KG::keygen_from_seed(&lines.array());
                    let (random, context, message) = (lines.array(), lines.bytes(), lines.bytes());
                    let signature = private.try_sign_with_seed(&random, &message, &context)?;
                    good = add_verdict(&mut text, public.verify(&message, &signature, &context));
                }
                _ => {
                    let (key, context) = (PublicKey::try_from_bytes(lines.array())?, lines.bytes());
                    let entries: Vec<_> =
                        (0..u16::from_be_bytes(lines.array())).map(|_| (lines.array(), lines.bytes())).collect();
                    for (signature, message) in entries {
                        good &= add_verdict(&mut text, key.verify(&message, &signature, &context));
                    }
                }
            }
            Ok((text, good))
        }
    };
}

set!(ml_dsa_44);
set!(ml_dsa_65);
set!(ml_dsa_87);

fn main() -> ExitCode {
    let words: Vec<String> = std::env::args().skip(1).collect();
    let [_, command, set] = words.as_slice() else { panic!("driver sha2 COMMAND SET") };
    let answer = match set.as_str() {
        "44" => ml_dsa_44,
        "65" => ml_dsa_65,
        _ => ml_dsa_87,
    };
    let (text, good) = answer(command, &mut Lines(BufReader::new(io::stdin().lock()))).expect("input without a fault");
    io::stdout().write_all(&text).expect("output that can be written");
    ExitCode::from(u8::from(!good))
}
