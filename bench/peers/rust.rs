//! RustCrypto's `ml-dsa` (feature `rustcrypto`), or `fips204`. Private keys stay in memory between the calls.
use std::io::{BufRead, Write};
use std::time::Instant;

#[cfg(feature = "rustcrypto")]
mod peer {
    use ml_dsa::{B32, EncodedSignature, EncodedVerifyingKey, Keypair, MlDsaParams, Signature, Signer, SigningKey};
    use ml_dsa::{Verifier, VerifyingKey};

    pub struct Key<P: MlDsaParams>(SigningKey<P>);

    pub fn keygen<P: MlDsaParams>() -> (Vec<u8>, Key<P>) {
        let mut seed = B32::default();
        std::io::Read::read_exact(&mut std::fs::File::open("/dev/urandom").unwrap(), &mut seed).unwrap();
        let key = SigningKey::<P>::from_seed(&seed);
        (key.verifying_key().encode().to_vec(), Key(key))
    }

    pub fn sign<P: MlDsaParams>(key: &Key<P>, message: &[u8]) -> Vec<u8> {
        key.0.sign(message).encode().to_vec()
    }

    pub fn verify<P: MlDsaParams>(public: &[u8], message: &[u8], signature: &[u8]) -> bool {
        let public = EncodedVerifyingKey::<P>::try_from(public).unwrap();
        let signature = EncodedSignature::<P>::try_from(signature).unwrap();
        let key = VerifyingKey::<P>::decode(&public);
        Signature::<P>::decode(&signature).is_some_and(|it| key.verify(message, &it).is_ok())
    }
}

/// The modes of the program over the calls of a set.
fn run<K>(
    mode: &str,
    count: u64,
    keygen: impl Fn() -> (Vec<u8>, K),
    sign: impl Fn(&K, &[u8]) -> Vec<u8>,
    verify: impl Fn(&[u8], &[u8], &[u8]) -> bool,
) {
    let mut out = std::io::BufWriter::new(std::io::stdout().lock());
    match mode {
        "make" => {
            for i in 0..count {
                let (public, key) = keygen();
                let message = i.to_le_bytes();
                writeln!(out, "{} {} {}", hex(&public), hex(&message), hex(&sign(&key, &message))).unwrap();
            }
        }
        "judge" => {
            for line in std::io::stdin().lock().lines().map(Result::unwrap) {
                let parts: Vec<_> = line.split_whitespace().map(unhex).collect();
                writeln!(out, "{}", u8::from(verify(&parts[0], &parts[1], &parts[2]))).unwrap();
            }
        }
        _ => {
            let mut last = keygen();
            let mut signature = Vec::new();
            for call in 0..3 {
                for i in 0..count {
                    let message = if call == 2 { count - 1 } else { i }.to_le_bytes();
                    let start = Instant::now();
                    match call {
                        0 => last = keygen(),
                        1 => signature = sign(&last.1, &message),
                        _ => assert!(verify(&last.0, &message, &signature)),
                    }
                    write!(out, "{} ", start.elapsed().as_nanos()).unwrap();
                }
                writeln!(out).unwrap();
            }
        }
    }
}

fn hex(bytes: &[u8]) -> String {
    bytes.iter().map(|byte| format!("{byte:02x}")).collect()
}

fn unhex(text: &str) -> Vec<u8> {
    (0..text.len()).step_by(2).map(|place| u8::from_str_radix(&text[place..place + 2], 16).unwrap()).collect()
}

#[cfg(not(feature = "rustcrypto"))]
macro_rules! at_set {
    ($set:ident, $mode:expr, $count:expr) => {{
        use fips204::$set;
        use fips204::traits::{SerDes, Signer, Verifier};
        run(
            $mode,
            $count,
            || {
                let (public, private) = $set::try_keygen().unwrap();
                (public.into_bytes().to_vec(), private)
            },
            |key, message| key.try_sign(message, &[]).unwrap().to_vec(),
            |public, message, signature| {
                let key = $set::PublicKey::try_from_bytes(public.try_into().unwrap()).unwrap();
                key.verify(message, signature.try_into().unwrap(), &[])
            },
        )
    }};
}

fn main() {
    let words: Vec<String> = std::env::args().collect();
    let (mode, count) = (words[2].as_str(), words.get(3).map_or(0, |it| it.parse().unwrap()));
    #[cfg(feature = "rustcrypto")]
    match words[1].as_str() {
        "44" => run(mode, count, peer::keygen::<ml_dsa::MlDsa44>, peer::sign, peer::verify::<ml_dsa::MlDsa44>),
        "65" => run(mode, count, peer::keygen::<ml_dsa::MlDsa65>, peer::sign, peer::verify::<ml_dsa::MlDsa65>),
        _ => run(mode, count, peer::keygen::<ml_dsa::MlDsa87>, peer::sign, peer::verify::<ml_dsa::MlDsa87>),
    }
    #[cfg(not(feature = "rustcrypto"))]
    match words[1].as_str() {
        "44" => at_set!(ml_dsa_44, mode, count),
        "65" => at_set!(ml_dsa_65, mode, count),
        _ => at_set!(ml_dsa_87, mode, count),
    }
}
