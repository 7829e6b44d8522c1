//! Keys as bytes and as values, and the errors of the calls that the original does not have.

use fips204::Error;
use std::collections::HashSet;

macro_rules! tests_of_a_set {
    ($set:ident, $feature:literal) => {
        #[cfg(feature = $feature)]
        mod $set {
            use super::*;
            use fips204::traits::{KeyGen, SerDes, Signer};
            use fips204::$set::{KG, PK_LEN, PrivateKey, PublicKey, SK_LEN, Seed, stack};

            /// Slices of the right length are keys; others are rejected, and so are bytes that are no private key.
            #[test]
            fn of_slices() {
                let (public, private) = KG::keygen_from_seed(&[7; 32]);
                let (pk, sk) = (public.clone().into_bytes(), private.clone().into_bytes());
                assert_eq!((public.as_bytes(), private.as_bytes()), (&pk, &sk));
                assert_eq!((public.as_ref(), public.to_bytes()), (&pk[..], pk));
                assert_eq!(PublicKey::try_from(&pk[..]).unwrap().as_bytes(), &pk);
                assert_eq!(PrivateKey::try_from(&sk[..]).unwrap().as_bytes(), &sk);
                for len in [0, PK_LEN - 1, PK_LEN + 1] {
                    let refused = PublicKey::try_from(&vec![0; len][..]).unwrap_err();
                    assert_eq!(refused.to_string(), "an array has the wrong length");
                }
                for len in [0, SK_LEN - 1, SK_LEN + 1] {
                    let refused = PrivateKey::try_from(&vec![0; len][..]).unwrap_err();
                    assert_eq!(refused.to_string(), "an array has the wrong length");
                }
                let refused = PrivateKey::try_from(&[0xFF; SK_LEN][..]).unwrap_err();
                assert_eq!(
                    refused.to_string(),
                    "the private key is damaged: s1 or s2 is out of range"
                );
            }

            /// Public keys are equal, and hash alike, if they have the same bytes.
            #[test]
            fn equal_by_their_bytes() {
                let (public, _) = KG::keygen_from_seed(&[7; 32]);
                let mut bytes = public.to_bytes();
                assert_eq!(PublicKey::try_from_bytes(bytes).unwrap(), public);
                for at in [0, PK_LEN / 2, PK_LEN - 1] {
                    bytes[at] ^= 1;
                    assert_ne!(PublicKey::try_from_bytes(bytes).unwrap(), public);
                    bytes[at] ^= 1;
                }
                let (other, _) = KG::keygen_from_seed(&[8; 32]);
                let known = HashSet::from([public.clone(), public.clone(), other.clone()]);
                assert_eq!((known.len(), known.contains(&public)), (2, true));
            }

            /// A private key that is moved has its bytes where they were, and is no larger than a pointer and a mark.
            #[cfg(feature = "alloc")]
            #[test]
            fn moved_without_a_copy() {
                let (_, private) = KG::keygen_from_seed(&[7; 32]);
                let (plain, prepared) = (private.as_bytes().as_ptr(), private.prepare());
                let moved = Box::new((private, prepared));
                assert_eq!(moved.0.as_bytes().as_ptr(), plain);
                assert!(size_of_val(&moved.0) <= 2 * size_of::<usize>());
                assert!(size_of_val(&moved.1) <= 2 * size_of::<usize>());
            }

            /// What was wiped is zeros, and no call takes it: nothing is signed with it, and nothing verifies.
            #[cfg(feature = "zeroize")]
            #[test]
            fn wiped_are_of_no_use() {
                use fips204::traits::Verifier;
                use fips204::$set::SIG_LEN;
                use std::panic::{AssertUnwindSafe, catch_unwind};
                use zeroize::Zeroize;
                const WIPED: &str = "the key or the hasher was wiped";

                let (mut public, mut private) = KG::keygen_from_seed(&[7; 32]);
                let (mut checks, mut signs) = (public.prepare(), private.prepare());
                let mut hasher = public.message_hasher(b"").unwrap();
                hasher.update(b"m");
                public.zeroize();
                private.zeroize();
                checks.zeroize();
                signs.zeroize();
                hasher.zeroize();
                assert_eq!(public.as_bytes(), &[0; PK_LEN]);
                assert_eq!(private.as_bytes(), &[0; SK_LEN]);

                // Zeros are a public key too, one under which anybody can sign.
                assert_ne!(public, PublicKey::try_from_bytes([0; PK_LEN]).unwrap());
                // The key of a prepared one that was wiped is one that was wiped.
                let (of_checks, of_signs) = (checks.key(), signs.key());
                assert_eq!(of_checks, public);
                let (mu, seed, digest) = ([1; 64], [0; 32], [5; 32]);
                let oid = &fips204::pre_hash::SHA2_256;
                for signature in [[0; SIG_LEN], [0xFF; SIG_LEN]] {
                    assert!(!public.verify(b"m", &signature, b""));
                    assert!(!public.hash_verify(&digest, &signature, b"", oid));
                    assert!(!public.verify_mu(&mu, &signature));
                    assert!(!checks.verify(b"m", &signature, b""));
                    assert!(!checks.hash_verify(&digest, &signature, b"", oid));
                    assert!(!checks.verify_mu(&mu, &signature));
                }
                for refused in [
                    private.try_sign_with_seed(&seed, b"m", b""),
                    private.try_hash_sign_with_seed(&seed, &digest, b"", oid),
                    private
                        .try_sign_mu_with_seed(&seed, &mu)
                        .map_err(Into::into),
                    signs.try_sign_with_seed(&seed, b"m", b""),
                    signs.try_hash_sign_with_seed(&seed, &digest, b"", oid),
                    signs.try_sign_mu_with_seed(&seed, &mu).map_err(Into::into),
                    of_signs.try_sign_with_seed(&seed, b"m", b""),
                ] {
                    assert_eq!(refused, Err(WIPED));
                }
                assert_eq!(private.is_pair(), Err(Error::from(WIPED)));
                assert_eq!(private.is_whole(), Err(Error::from(WIPED)));
                for written in [
                    public.write_der(&mut vec![0; PublicKey::DER_LEN]),
                    private.write_der(&mut vec![0; PrivateKey::DER_LEN]),
                ] {
                    assert_eq!(written, Err(Error::from(WIPED)));
                }
                for begun in [
                    public.message_hasher(b""),
                    private.message_hasher(b""),
                    checks.message_hasher(b""),
                    signs.message_hasher(b""),
                    of_checks.message_hasher(b""),
                    of_signs.message_hasher(b""),
                ] {
                    assert_eq!(begun.err().map(|it| it.to_string()), Some(WIPED.into()));
                }
                #[cfg(feature = "default-rng")]
                assert_eq!(
                    std::io::Write::write(&mut hasher, b"m").map_err(|it| it.to_string()),
                    Err(WIPED.into())
                );
                let panics: [(&str, &mut dyn FnMut()); 6] = [
                    ("update", &mut || hasher.clone().update(b"m")),
                    ("finalize", &mut || {
                        assert!(hasher.clone().finalize().is_empty())
                    }),
                    ("prepare", &mut || drop(public.prepare())),
                    ("prepare", &mut || drop(private.prepare())),
                    ("get_public_key", &mut || drop(private.get_public_key())),
                    ("get_public_key", &mut || drop(signs.get_public_key())),
                ];
                for (name, call) in panics {
                    let said = catch_unwind(AssertUnwindSafe(call)).unwrap_err();
                    let text = said.downcast_ref::<String>().unwrap();
                    assert_eq!(text, &format!("{name}: {WIPED}"));
                }
            }

            /// Each call ends in a thread that has the stack that its figure says, and 64 KiB for this crate.
            #[test]
            fn stacks() {
                fn within(bytes: usize, call: impl FnOnce() + Send) {
                    // Without optimisation a call has what the documents say of that.
                    let bytes = if cfg!(debug_assertions) {
                        768 << 10
                    } else {
                        bytes
                    };
                    let thread = std::thread::Builder::new().stack_size(bytes + (64 << 10));
                    std::thread::scope(|it| thread.spawn_scoped(it, call).unwrap().join().unwrap());
                }
                let (mu, seed) = ([1; 64], [0; 32]);
                within(stack::KEYGEN, || drop(KG::keygen_from_seed(&seed)));
                let of_pair = Seed::from_bytes(&seed);
                within(stack::KEYGEN, || assert!(of_pair.keygen().is_ok()));
                within(stack::DER, || {
                    let mut der = [0; Seed::BOTH_DER_LEN];
                    of_pair.write_both_der(&mut der).unwrap();
                    assert!(Seed::from_der(&der).is_ok());
                });
                let (public, private) = KG::keygen_from_seed(&seed);
                let signature = private.try_sign_mu_with_seed(&seed, &mu).unwrap();
                within(stack::SIGN, || {
                    assert!(private.try_sign_mu_with_seed(&seed, &mu).is_ok())
                });
                within(stack::VERIFY, || assert!(public.verify_mu(&mu, &signature)));
                within(stack::PUBLIC_KEY, || {
                    assert_eq!(private.get_public_key(), public)
                });
                within(stack::CHECK, || {
                    assert!(PrivateKey::try_from(&private.as_bytes()[..]).is_ok());
                });
                within(stack::WHOLE, || assert_eq!(private.is_whole(), Ok(true)));
                within(stack::PAIR, || assert_eq!(private.is_pair(), Ok(true)));
                within(stack::PREPARE_PUBLIC_KEY + PLACE, || drop(public.prepare()));
                within(stack::PREPARE_PRIVATE_KEY + PLACE, || {
                    drop(private.prepare())
                });
                let (checks, signs) = (public.prepare(), private.prepare());
                within(stack::VERIFY_PREPARED, || {
                    assert!(checks.verify_mu(&mu, &signature))
                });
                within(stack::SIGN_PREPARED, || {
                    assert!(signs.try_sign_mu_with_seed(&seed, &mu).is_ok());
                });
                within(fips204::STACK_MU, || {
                    let mut hasher = public.message_hasher(b"").unwrap();
                    hasher.update(b"m");
                    assert_ne!(hasher.finalize(), mu);
                });
            }
        }
    };
}

/// Without `alloc` a prepared key itself is on the stack where it is made, with a copy or two.
const PLACE: usize = if cfg!(feature = "alloc") {
    0
} else {
    256 << 10
};

tests_of_a_set!(ml_dsa_44, "ml-dsa-44-bare");
tests_of_a_set!(ml_dsa_65, "ml-dsa-65-bare");
tests_of_a_set!(ml_dsa_87, "ml-dsa-87-bare");

/// Either error becomes the other by `?`, and ours becomes what programs collect errors in.
#[test]
fn errors() {
    fn ours(text: &'static str) -> Result<(), Error> {
        Err(text)?
    }
    fn originals(text: &'static str) -> Result<(), &'static str> {
        Ok(ours(text)?)
    }
    fn collected(text: &'static str) -> Result<(), Box<dyn std::error::Error + Send + Sync>> {
        Ok(ours(text)?)
    }
    assert_eq!(ours("a text").unwrap_err().as_str(), "a text");
    assert_eq!(originals("a text"), Err("a text"));
    assert_eq!(collected("a text").unwrap_err().to_string(), "a text");
    assert_eq!(format!("{:?}", Error::from("a text")), "Error(\"a text\")");
}

/// Threads share what has no generator.
#[test]
fn sent_and_shared() {
    fn is_shared<T: Send + Sync + 'static>() {}
    is_shared::<Error>();
    is_shared::<fips204::MessageHasher>();
    #[cfg(feature = "ml-dsa-44-bare")]
    {
        use fips204::ml_dsa_44::{PreparedPrivateKey, PreparedPublicKey};
        use fips204::ml_dsa_44::{PrivateKey, PublicKey, Seed};
        is_shared::<(PublicKey, PrivateKey, Seed)>();
        is_shared::<(PreparedPublicKey, PreparedPrivateKey)>();
    }
}

/// A signer of one's own has the calls with a seed, and those with a generator of them.
#[cfg(feature = "ml-dsa-44-bare")]
#[test]
fn signer_by_seeds() {
    use fips204::ml_dsa_44::{KG, PrivateKey, PublicKey, SIG_LEN};
    use fips204::traits::{KeyGen, Signer};

    struct Own(PrivateKey);

    impl Signer for Own {
        type Signature = [u8; SIG_LEN];
        type PublicKey = PublicKey;

        fn try_sign_with_seed(
            &self,
            seed: &[u8; 32],
            message: &[u8],
            ctx: &[u8],
        ) -> Result<[u8; SIG_LEN], &'static str> {
            self.0.try_sign_with_seed(seed, message, ctx)
        }

        fn try_hash_sign_with_seed(
            &self,
            _seed: &[u8; 32],
            _hash: &[u8],
            _ctx: &[u8],
            _hash_oid: &[u8],
        ) -> Result<[u8; SIG_LEN], &'static str> {
            Err("no digests")
        }

        fn get_public_key(&self) -> PublicKey {
            self.0.get_public_key()
        }
    }

    let own = Own(KG::keygen_from_seed(&[7; 32]).1);
    let signature = own.try_sign_with_seed(&[9; 32], b"m", b"").unwrap();
    assert_eq!(own.0.try_sign_with_seed(&[9; 32], b"m", b""), Ok(signature));
    #[cfg(feature = "rand_core")]
    {
        let mut rng = fips204::FillRng(|out: &mut [u8]| {
            out.fill(9);
            out.len() == 32
        });
        assert_eq!(own.try_sign_with_rng(&mut rng, b"m", b""), Ok(signature));
        let refused = own.try_sign_with_rng(&mut rng, b"m", &[0; 256]);
        assert_eq!(refused, Err("ML-DSA.Sign: ctx too long"));
        let oid = &fips204::pre_hash::SHA2_256;
        let refused = own.try_hash_sign_with_rng(&mut rng, &[5; 32], b"", oid);
        assert_eq!(refused, Err("no digests"));
    }
}
