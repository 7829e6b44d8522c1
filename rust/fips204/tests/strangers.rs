//! What strangers give: keys in PEM and DER that are damaged, public and private keys, signatures and messages of any bytes. Each
//! answer is held by a second road to it. A test begins with what is published, in the folder that `FUZZ_CORPUS` names
//! (vectors/corpus.py writes it), and the simple changes of that, and goes on with random ones. The seed is printed, and `FUZZ_SEED`
//! makes the run of that seed again; `FUZZ_SECONDS` is how long each test goes on. The package depends on no other crate for its
//! tests, so that it builds where there is no registry.

#![cfg(all(
    feature = "ml-dsa-44-bare",
    feature = "ml-dsa-65-bare",
    feature = "ml-dsa-87-bare",
    feature = "default-rng"
))]

use std::fmt::Display;
use std::panic::{AssertUnwindSafe, catch_unwind, resume_unwind};
use std::path::{Path, PathBuf};
use std::sync::LazyLock;
use std::time::{Duration, Instant, SystemTime, UNIX_EPOCH};

/// Numbers of a generator (xorshift), which its seed makes again.
struct Draws {
    now: u64,
}

impl Draws {
    fn new(seed: u64) -> Self {
        Draws {
            now: seed.wrapping_mul(0x9E37_79B9_7F4A_7C15) | 1,
        }
    }

    /// A number below another.
    fn below(&mut self, count: usize) -> usize {
        self.now ^= self.now << 13;
        self.now ^= self.now >> 7;
        self.now ^= self.now << 17;
        (self.now >> 11) as usize % count
    }

    fn of<'a, T>(&mut self, some: &'a [T]) -> &'a T {
        &some[self.below(some.len())]
    }

    /// The bytes with up to three changes, mostly near the front, where their structure is.
    fn damaged(&mut self, bytes: &[u8], planted: &[&[u8]]) -> Vec<u8> {
        let mut bytes = bytes.to_vec();
        for _ in 0..self.below(4) {
            let length = bytes.len();
            let at = match self.below(3) {
                0 => self.below(length + 1),
                1 => self.below(length.min(60) + 1),
                _ => length - self.below(length.min(60) + 1),
            };
            match self.below(5) {
                0 => bytes.truncate(at),
                1 => drop(bytes.splice(at..at, self.of(planted).iter().copied())),
                2 => drop(bytes.drain(at..(at + 1 + self.below(4)).min(length).max(at))),
                3 if at < length => bytes[at] ^= 1 << self.below(8),
                _ if at < length => bytes[at] = self.below(256) as u8,
                _ => bytes.push(0),
            }
        }
        bytes
    }

    /// Changes a bit of the bytes, if there are any.
    fn flip(&mut self, bytes: &mut [u8]) {
        if !bytes.is_empty() {
            bytes[self.below(bytes.len())] ^= 1 << self.below(8);
        }
    }
}

/// A number that a variable has.
fn number(name: &str) -> Option<u64> {
    std::env::var(name)
        .ok()
        .map(|it| it.parse::<u64>().unwrap())
}

/// The seed of the first run of each test.
static FIRST: LazyLock<u64> = LazyLock::new(|| {
    let since = SystemTime::now().duration_since(UNIX_EPOCH).unwrap();
    let first = number("FUZZ_SEED").unwrap_or(since.as_nanos() as u64 >> 8);
    println!("FUZZ_SEED={first}");
    first
});

/// Runs something, and says of what it was if that found something.
fn watched(of: impl Display, run: impl FnOnce()) {
    if let Err(fault) = catch_unwind(AssertUnwindSafe(run)) {
        println!("found by {of}");
        resume_unwind(fault);
    }
}

/// Runs a test with one seed after another, and says which one it was that found something.
fn with_seeds(test: impl Fn(&mut Draws)) {
    let (given, seconds) = (number("FUZZ_SEED"), number("FUZZ_SECONDS"));
    let end = Instant::now() + Duration::from_secs(seconds.unwrap_or(1));
    for seed in *FIRST.. {
        watched(format_args!("FUZZ_SEED={seed}"), || {
            test(&mut Draws::new(seed))
        });
        if (given.is_some() && seconds.is_none()) || Instant::now() > end {
            break;
        }
    }
}

/// The published inputs of a kind that begin with these bytes, and their files. There are none if `FUZZ_CORPUS` is not set.
fn published(kind: &str, front: &[u8]) -> Vec<(PathBuf, Vec<u8>)> {
    let Some(folder) = std::env::var_os("FUZZ_CORPUS") else {
        println!("FUZZ_CORPUS is not set: no published inputs of {kind}");
        return Vec::new();
    };
    let files = std::fs::read_dir(Path::new(&folder).join(kind)).unwrap();
    let mut found: Vec<_> = files
        .map(|it| it.unwrap().path())
        .map(|it| (it.clone(), std::fs::read(it).unwrap()))
        .filter(|(_, it)| it.starts_with(front))
        .collect();
    found.sort();
    println!("{kind} {front:?}: {} published inputs", found.len());
    assert!(!found.is_empty());
    found
}

/// What is left of an input that is read from its front: behind its set and kind come the lengths of its parts, and these.
struct Parts<'a>(&'a [u8]);

impl<'a> Parts<'a> {
    fn of(&mut self, length: usize) -> &'a [u8] {
        let (front, back) = self.0.split_at(length);
        self.0 = back;
        front
    }

    fn numbers<const COUNT: usize>(&mut self) -> [usize; COUNT] {
        std::array::from_fn(|_| {
            let bytes = self.of(2);
            usize::from(bytes[0]) << 8 | usize::from(bytes[1])
        })
    }
}

/// Bytes as they are, and with each of the simple changes: a byte less or more at an end, and a bit of one of the first bytes, of
/// one in the middle, or of the last.
fn changes(bytes: &[u8], first: usize) -> Vec<Vec<u8>> {
    let length = bytes.len();
    let shorter = length.saturating_sub(1);
    let mut made = vec![
        bytes.to_vec(),
        bytes[..shorter].to_vec(),
        bytes[length - shorter..].to_vec(),
        [bytes, &[0]].concat(),
    ];
    for at in (0..first).chain([length / 2, shorter]) {
        let mut other = bytes.to_vec();
        if at < length {
            other[at] ^= 1;
            made.push(other);
        }
    }
    made
}

/// How many of the first bytes of a file, and of a key or signature, are changed.
const OF_FILE: usize = 40;
const OF_BYTES: usize = 8;

macro_rules! tests_of_a_set {
    ($set:ident, $place:literal) => {
        mod $set {
            use super::{Draws, OF_BYTES, OF_FILE, Parts, changes, published, watched, with_seeds};
            use fips204::traits::{KeyGen, Signer, Verifier};
            use fips204::$set::{KG, PK_LEN, PrivateKey, PublicKey, SIG_LEN, Seed};

            const PLANTED: [&[u8]; 12] = [
                b"\n",
                b"\r",
                b"\r\n",
                b" ",
                b"-",
                b"=",
                b"A",
                b"\0",
                "\u{e9}".as_bytes(),
                b"-----BEGIN ",
                b"-----END PUBLIC KEY-----\n",
                b"\x30\x82",
            ];

            /// A text that is read has the one that is written again, but for white space, and begins no other.
            fn has_text(given: &str, written: &str) {
                let black = |text: &str| text.split_ascii_whitespace().collect::<String>();
                assert!(black(given).contains(&black(written)), "{given}");
                // The dashes at the end of a line begin no text.
                let begun = given.replace("KEY-----", "KEY");
                assert_eq!(begun.matches("-----BEGIN ").count(), 1, "{given}");
            }

            fn read_pem(text: &[u8]) {
                let text = String::from_utf8_lossy(text);
                if let Ok(read) = PublicKey::from_pem(&text) {
                    has_text(&text, &read.to_pem().unwrap());
                }
                if let Ok(seed) = Seed::from_pem(&text) {
                    has_text(&text, &seed.to_pem().unwrap());
                    let (_, generated) = seed.keygen().unwrap();
                    let read = PrivateKey::from_pem(&text).unwrap();
                    assert_eq!(read.as_bytes(), generated.as_bytes());
                } else if let Ok(read) = PrivateKey::from_pem(&text) {
                    has_text(&text, &read.to_pem().unwrap());
                    assert_eq!(read.is_pair(), Ok(true));
                }
            }

            /// DER that is read is the DER that is written again.
            fn read_der(file: &[u8]) {
                let mut again = vec![0; file.len()];
                if let Ok(read) = PublicKey::from_der(file) {
                    read.write_der(&mut again).unwrap();
                    assert_eq!(again, file);
                }
                if let Ok(seed) = Seed::from_der(file) {
                    let (_, generated) = seed.keygen().unwrap();
                    let read = PrivateKey::from_der(file).unwrap();
                    assert_eq!(read.as_bytes(), generated.as_bytes());
                }
                if let Ok(read) = PrivateKey::from_der(file) {
                    assert_eq!(read.is_pair(), Ok(true));
                    if read.write_der(&mut again).is_ok() {
                        assert_eq!(again, file);
                    }
                }
            }

            #[test]
            fn damaged_pem() {
                let (public, private) = KG::keygen_from_seed(&[7; 32]);
                let mut texts = vec![
                    public.to_pem().unwrap().into_bytes(),
                    private.to_pem().unwrap().into_bytes(),
                    Seed::from_bytes(&[7; 32]).to_pem().unwrap().into_bytes(),
                ];
                for (file, text) in published("pem", b"") {
                    watched(file.display(), || {
                        changes(&text, OF_FILE).iter().for_each(|it| read_pem(it));
                        read_pem(&with_cr(&text));
                    });
                    texts.push(text);
                }
                with_seeds(|draws: &mut Draws| {
                    let text = draws.of(&texts).clone();
                    let text = if draws.below(4) == 0 {
                        with_cr(&text)
                    } else {
                        text
                    };
                    read_pem(&draws.damaged(&text, &PLANTED));
                });
            }

            /// A text with CR before each LF.
            fn with_cr(text: &[u8]) -> Vec<u8> {
                String::from_utf8_lossy(text)
                    .replace('\n', "\r\n")
                    .into_bytes()
            }

            #[test]
            fn damaged_der() {
                let (public, private) = KG::keygen_from_seed(&[7; 32]);
                let mut files = vec![vec![0; PublicKey::DER_LEN], vec![0; PrivateKey::DER_LEN]];
                public.write_der(&mut files[0]).unwrap();
                private.write_der(&mut files[1]).unwrap();
                for (name, file) in published("der", b"") {
                    watched(name.display(), || {
                        changes(&file, OF_FILE).iter().for_each(|it| read_der(it));
                    });
                    files.push(file);
                }
                with_seeds(|draws: &mut Draws| {
                    let file = draws.of(&files);
                    read_der(&draws.damaged(file, &PLANTED));
                });
            }

            /// A public key, a signature, and what that is of.
            #[derive(Clone, PartialEq)]
            struct Signed {
                key: Vec<u8>,
                signature: Vec<u8>,
                message: Vec<u8>,
                context: Vec<u8>,
            }

            impl Signed {
                /// What the key says of the signature. A prepared key and a message in pieces, which is cut there, say the same.
                fn is_accepted(&self, cut: usize) -> bool {
                    let Ok(key) = PublicKey::try_from(self.key.as_slice()) else {
                        assert_ne!(self.key.len(), PK_LEN);
                        return false;
                    };
                    let Ok(signature) = self.signature.as_slice().try_into() else {
                        assert_ne!(self.signature.len(), SIG_LEN);
                        return false;
                    };
                    let (message, context) = (&self.message, &self.context);
                    let verdict = key.verify(message, signature, context);
                    let of_prepared = key.prepare().verify(message, signature, context);
                    assert_eq!(of_prepared, verdict);
                    if let Ok(mut hasher) = key.message_hasher(context) {
                        let (front, back) = message.split_at(cut.min(message.len()));
                        hasher.update(front);
                        hasher.update(back);
                        assert_eq!(key.verify_mu(&hasher.finalize(), signature), verdict);
                    } else {
                        assert!(context.len() > 255 && !verdict);
                    }
                    verdict
                }

                /// If this is accepted, another key or signature is not.
                fn compare(&self, other: &Signed, cut: usize) {
                    let is_accepted = other.is_accepted(cut);
                    if self.is_accepted(0) {
                        assert_eq!(is_accepted, self == other);
                    }
                }
            }

            #[test]
            fn damaged_signatures() {
                let (public, private) = KG::keygen_from_seed(&[7; 32]);
                let mut known = Vec::new();
                for (file, bytes) in published("keys", &[$place, 0]) {
                    let mut parts = Parts(&bytes[2..]);
                    let [key, signature, context, cut] = parts.numbers();
                    let signed = Signed {
                        key: parts.of(key).to_vec(),
                        signature: parts.of(signature).to_vec(),
                        context: parts.of(context).to_vec(),
                        message: parts.0.to_vec(),
                    };
                    watched(file.display(), || {
                        for key in changes(&signed.key, OF_BYTES) {
                            let other = Signed {
                                key,
                                ..signed.clone()
                            };
                            signed.compare(&other, cut);
                        }
                        for signature in changes(&signed.signature, OF_BYTES) {
                            let other = Signed {
                                signature,
                                ..signed.clone()
                            };
                            signed.compare(&other, cut);
                        }
                    });
                    known.push(signed);
                }
                assert!(known.is_empty() || known.iter().any(|it| it.is_accepted(0)));
                with_seeds(|draws: &mut Draws| {
                    let signed = if !known.is_empty() && draws.below(2) == 0 {
                        draws.of(&known).clone()
                    } else {
                        let message: Vec<u8> = (0..draws.below(400)).map(|it| it as u8).collect();
                        let context = &message[..draws.below(message.len().min(255) + 1)];
                        let made = private.try_sign_with_seed(&[0; 32], &message, context);
                        let made = Signed {
                            key: public.to_bytes().to_vec(),
                            signature: made.unwrap().to_vec(),
                            context: context.to_vec(),
                            message,
                        };
                        assert!(made.is_accepted(0));
                        made
                    };
                    let mut other = signed.clone();
                    for _ in 0..draws.below(3) {
                        draws.flip(&mut other.signature);
                    }
                    if draws.below(4) == 0 {
                        draws.flip(&mut other.key);
                    }
                    signed.compare(&other, draws.below(400));
                });
            }

            /// What a private key signs, a prepared one signs too, and its public key accepts that, if the key is consistent. The
            /// one of its DER is the same.
            fn sign(key: &[u8], random: &[u8; 32], message: &[u8], context: &[u8]) {
                let Ok(key) = PrivateKey::try_from(key) else {
                    return;
                };
                let is_pair = key.is_pair().unwrap();
                let mut file = vec![0; PrivateKey::DER_LEN];
                assert_eq!(key.write_der(&mut file).is_ok(), is_pair);
                // (all attempts with another one take long)
                if is_pair {
                    let read = PrivateKey::from_der(&file).unwrap();
                    assert_eq!(read.as_bytes(), key.as_bytes());
                    let made = key.try_sign_with_seed(random, message, context);
                    let of_prepared = key.prepare().try_sign_with_seed(random, message, context);
                    assert_eq!(of_prepared, made);
                    assert_eq!(made.is_ok(), context.len() <= 255);
                    let public = key.get_public_key();
                    assert!(made.is_err() || public.verify(message, &made.unwrap(), context));
                }
            }

            #[test]
            fn damaged_private_keys() {
                let (_, private) = KG::keygen_from_seed(&[7; 32]);
                let mut known = vec![private.as_bytes().to_vec()];
                for (file, bytes) in published("keys", &[$place, 1]) {
                    let mut parts = Parts(&bytes[2..]);
                    let [key, context, _] = parts.numbers();
                    let (key, random) = (parts.of(key), parts.of(32).try_into().unwrap());
                    let context = parts.of(context);
                    watched(file.display(), || {
                        for it in changes(key, OF_BYTES) {
                            sign(&it, random, parts.0, context);
                        }
                    });
                    known.push(key.to_vec());
                }
                // (with no changes, which c/fuzz/strangers.c makes in a prepared key)
                for (file, bytes) in published("prepared", &[$place, 1, 0]) {
                    let (seed, message) = bytes[3..].split_first_chunk().unwrap();
                    let key = KG::keygen_from_seed(seed).1.as_bytes().to_vec();
                    watched(file.display(), || sign(&key, seed, message, b""));
                    known.push(key);
                }
                with_seeds(|draws: &mut Draws| {
                    let mut key = draws.of(&known).clone();
                    let message: Vec<u8> = (0..draws.below(400)).map(|it| it as u8).collect();
                    if draws.below(2) == 0 {
                        draws.flip(&mut key);
                    }
                    sign(&key, &[draws.below(256) as u8; 32], &message, b"");
                });
            }
        }
    };
}

tests_of_a_set!(ml_dsa_44, 0);
tests_of_a_set!(ml_dsa_65, 1);
tests_of_a_set!(ml_dsa_87, 2);
