//! Makes the calls that standard input asks for, a line each: the number of a set, the name of a call, and its arrays in hex, with a tab between.
//! Prints a line for each: what was made in hex, with a tab between; yes or no; or the text of an error.

use std::io::{self, BufRead, Write};

const WRONG_LENGTH: &str = "an array has the wrong length";

/// The bytes that a text of hex digits has.
fn bytes(text: &str) -> Vec<u8> {
    let pairs = (0..text.len() / 2).map(|i| &text[2 * i..2 * i + 2]);
    pairs
        .map(|pair| u8::from_str_radix(pair, 16).expect("hex digits"))
        .collect()
}

fn hex(bytes: &[u8]) -> String {
    bytes.iter().map(|byte| format!("{byte:02x}")).collect()
}

fn word(yes: bool) -> String {
    String::from(if yes { "yes" } else { "no" })
}

/// An array of a fixed length.
fn array<const LEN: usize>(bytes: &[u8]) -> Result<[u8; LEN], &'static str> {
    bytes.try_into().map_err(|_| WRONG_LENGTH)
}

/// The text of a file.
fn text(bytes: &[u8]) -> Result<&str, &'static str> {
    std::str::from_utf8(bytes).map_err(|_| "it is no text")
}

/// The calls of a parameter set.
macro_rules! calls {
    ($set:ident) => {
        mod $set {
            use crate::{array, hex, text, word};
            use fips204::traits::{KeyGen, SerDes, Signer, Verifier};
            use fips204::$set::{KG, PrivateKey, PublicKey, Seed};

            pub fn answer(call: &str, a: &[Vec<u8>]) -> Result<String, &'static str> {
                let private = || PrivateKey::try_from_bytes(array(&a[0])?);
                let public = || PublicKey::try_from_bytes(array(&a[0])?);
                let seed = || Ok::<_, &'static str>(Seed::from_bytes(&array(&a[0])?));
                Ok(match call {
                    "keygen" => {
                        let (public, private) = KG::keygen_from_seed(&array(&a[0])?);
                        format!(
                            "{}\t{}",
                            hex(&public.into_bytes()),
                            hex(&private.into_bytes())
                        )
                    }
                    "sign" => hex(&private()?.try_sign_with_seed(&array(&a[3])?, &a[1], &a[2])?),
                    "verify" => word(public()?.verify(&a[1], &array(&a[3])?, &a[2])),
                    "hash_sign" => hex(&private()?.try_hash_sign_with_seed(
                        &array(&a[4])?,
                        &a[1],
                        &a[2],
                        &a[3],
                    )?),
                    "hash_verify" => {
                        word(public()?.hash_verify(&a[1], &array(&a[4])?, &a[2], &a[3]))
                    }
                    "sign_mu" => {
                        hex(&private()?.try_sign_mu_with_seed(&array(&a[2])?, &array(&a[1])?)?)
                    }
                    "verify_mu" => word(public()?.verify_mu(&array(&a[1])?, &array(&a[2])?)),
                    "public_key_from_der" => hex(&PublicKey::from_der(&a[0])?.into_bytes()),
                    "public_key_from_pem" => hex(&PublicKey::from_pem(text(&a[0])?)?.into_bytes()),
                    "public_key_to_der" => {
                        let mut der = [0; PublicKey::DER_LEN];
                        public()?.write_der(&mut der)?;
                        hex(&der)
                    }
                    "public_key_to_pem" => hex(public()?.to_pem()?.as_bytes()),
                    "private_key_from_der" => hex(&PrivateKey::from_der(&a[0])?.into_bytes()),
                    "private_key_from_pem" => {
                        hex(&PrivateKey::from_pem(text(&a[0])?)?.into_bytes())
                    }
                    "private_key_to_der" => {
                        let mut der = [0; PrivateKey::DER_LEN];
                        private()?.write_der(&mut der)?;
                        hex(&der)
                    }
                    "private_key_to_pem" => hex(private()?.to_pem()?.as_bytes()),
                    "both_to_der" => {
                        let mut der = [0; Seed::BOTH_DER_LEN];
                        seed()?.write_both_der(&mut der)?;
                        hex(&der)
                    }
                    "seed_from_der" => hex(Seed::from_der(&a[0])?.as_bytes()),
                    "seed_from_pem" => hex(Seed::from_pem(text(&a[0])?)?.as_bytes()),
                    "seed_to_der" => {
                        let mut der = [0; Seed::DER_LEN];
                        seed()?.write_der(&mut der)?;
                        hex(&der)
                    }
                    "seed_to_pem" => hex(seed()?.to_pem()?.as_bytes()),
                    _ => panic!("there is no call {call}"),
                })
            }
        }
    };
}

calls!(ml_dsa_44);
calls!(ml_dsa_65);
calls!(ml_dsa_87);

fn main() -> io::Result<()> {
    let mut out = io::stdout().lock();
    for line in io::stdin().lock().lines() {
        let line = line?;
        let mut fields = line.split('\t');
        let number = fields.next().unwrap_or_default();
        let call = fields.next().unwrap_or_default();
        let given: Vec<Vec<u8>> = fields.map(bytes).collect();
        let answer = match number {
            "44" => ml_dsa_44::answer(call, &given),
            "65" => ml_dsa_65::answer(call, &given),
            "87" => ml_dsa_87::answer(call, &given),
            _ => panic!("there is no set {number}"),
        };
        writeln!(out, "{}", answer.unwrap_or_else(String::from))?;
    }
    Ok(())
}
