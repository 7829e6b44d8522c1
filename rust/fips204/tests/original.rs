//! What the crate fips204 0.5.0 tests of its public calls, written anew. Only its names occur here, so these tests also run over
//! `rust/patch`, by its features `default` and by `ml-dsa-44` alone.
#![cfg(any(feature = "ml-dsa-44", feature = "ml-dsa-65", feature = "ml-dsa-87"))]

#[cfg(feature = "ml-dsa-44")]
mod shake128;

use fips204::pre_hash;
use fips204::traits::{KeyGen, SerDes, Signer, Verifier};
use fips204::{CryptoRng, RngCore, RngError};
use zeroize::{Zeroize, ZeroizeOnDrop};

/// A generator of bytes that are given.
struct Given(std::vec::IntoIter<u8>);

impl RngCore for Given {
    fn next_u32(&mut self) -> u32 {
        unimplemented!("keys and signatures are drawn by try_fill_bytes")
    }
    fn next_u64(&mut self) -> u64 {
        unimplemented!("keys and signatures are drawn by try_fill_bytes")
    }
    fn fill_bytes(&mut self, out: &mut [u8]) {
        self.try_fill_bytes(out).unwrap();
    }
    fn try_fill_bytes(&mut self, out: &mut [u8]) -> Result<(), RngError> {
        for byte in out {
            *byte = self.0.next().ok_or(core::num::NonZeroU32::MAX)?;
        }
        Ok(())
    }
}

impl CryptoRng for Given {}

/// Puts a number of `width` bits at place `n` of the packed ones behind `start`.
fn put(bytes: &mut [u8], start: usize, width: usize, n: usize, number: u16) {
    for bit in 0..width {
        let (at, mask) = (start + (width * n + bit) / 8, 1 << ((width * n + bit) % 8));
        bytes[at] &= !mask;
        if (number >> bit) & 1 == 1 {
            bytes[at] |= mask;
        }
    }
}

fn is_wiped_when_dropped<T: Zeroize + ZeroizeOnDrop + Clone>(_: &T) {}

macro_rules! of_set {
    ($set:ident, $feature:literal, $eta:literal, $polynomials:literal, $first:literal) => {
        #[cfg(feature = $feature)]
        mod $set {
            use super::*;
            use fips204::$set::*;

            const DIGEST: [u8; 64] = [5; 64];

            #[test]
            fn pairs_and_signatures() {
                let mut rng = Given(
                    (0..=255)
                        .cycle()
                        .take(4 * 160)
                        .collect::<Vec<u8>>()
                        .into_iter(),
                );
                for _ in 0..4 {
                    let (public, private) = try_keygen_with_rng(&mut rng).unwrap();
                    is_wiped_when_dropped(&public);
                    is_wiped_when_dropped(&private);
                    let signature = private.try_sign_with_rng(&mut rng, b"one", b"").unwrap();
                    assert!(public.verify(b"one", &signature, b""));
                    assert!(!public.verify(b"two", &signature, b""));
                    for (length, oid) in [
                        (32, pre_hash::SHA2_256),
                        (64, pre_hash::SHA2_512),
                        (32, pre_hash::SHAKE_128),
                    ] {
                        let digest = &DIGEST[..length];
                        let signed = private.try_hash_sign_with_rng(&mut rng, digest, b"", &oid);
                        assert!(public.hash_verify(digest, &signed.unwrap(), b"", &oid));
                    }
                    assert_eq!(private.get_public_key().into_bytes(), public.into_bytes());
                }
                assert_eq!(
                    try_keygen_with_rng(&mut rng).err(),
                    Some("KeyGen: Random number generator failed")
                );
            }

            #[test]
            fn seeds() {
                let (public, private) = KG::keygen_from_seed(&[0x11; 32]);
                let signature = private.try_sign_with_seed(&[12; 32], b"one", b"").unwrap();
                assert!(public.verify(b"one", &signature, b""));
                let (digest, oid) = (&DIGEST[..32], pre_hash::SHA2_256);
                let signed = private.try_hash_sign_with_seed(&[34; 32], digest, b"", &oid);
                assert!(public.hash_verify(digest, &signed.unwrap(), b"", &oid));
                assert_eq!(public.into_bytes()[0], $first);
            }

            #[cfg(feature = "default-rng")]
            #[test]
            fn by_the_system() {
                let (public, private) = try_keygen().unwrap();
                let signature = private.try_sign(b"one", b"").unwrap();
                assert!(public.verify(b"one", &signature, b""));
                assert!(!public.verify(b"two", &signature, b""));
                assert!(!public.verify(b"one", &signature, &[0; 257]));
                assert!(private.try_sign(b"one", &[0; 257]).is_err());
                let oid = pre_hash::SHA2_512;
                let signature = private.try_hash_sign(&DIGEST, b"", &oid).unwrap();
                assert!(public.hash_verify(&DIGEST, &signature, b"", &oid));
                assert!(private.try_hash_sign(&DIGEST, b"", &[]).is_err());
                assert!(!public.hash_verify(&DIGEST, &signature, b"", &[]));
                assert!(private.try_hash_sign(&[0; 1025], b"", &oid).is_err());
                assert!(!public.hash_verify(&[0; 1025], &signature, b"", &oid));
            }

            /// A private key has coefficients of s1 and s2 from -eta to eta, the first and the last one too.
            #[test]
            fn range_of_secrets() {
                let width = if $eta == 2 { 3 } else { 4 };
                let bytes = KG::keygen_from_seed(&[1; 32]).1.into_bytes();
                let with = |n, number| {
                    let mut bytes = bytes;
                    put(&mut bytes, 128, width, n, number);
                    PrivateKey::try_from_bytes(bytes)
                };
                for n in [0, 256 * $polynomials - 1] {
                    for number in [0, 2 * $eta] {
                        let key = with(n, number).unwrap();
                        assert!(key.try_sign_with_seed(&[3; 32], b"one", b"").is_ok());
                    }
                    for number in [2 * $eta + 1, (1 << width) - 1] {
                        assert_eq!(
                            with(n, number).err(),
                            Some("the private key is damaged: s1 or s2 is out of range")
                        );
                    }
                }
            }

            #[test]
            fn digests_and_identifiers() {
                let (public, private) = KG::keygen_from_seed(&[1; 32]);
                let sign = |digest: &[u8], oid: &[u8]| {
                    private.try_hash_sign_with_seed(&[3; 32], digest, b"a context", oid)
                };
                let lengths = [
                    (pre_hash::SHA2_224, 28),
                    (pre_hash::SHA2_256, 32),
                    (pre_hash::SHA2_384, 48),
                    (pre_hash::SHA2_512, 64),
                    (pre_hash::SHA2_512_224, 28),
                    (pre_hash::SHA2_512_256, 32),
                    (pre_hash::SHA3_224, 28),
                    (pre_hash::SHA3_256, 32),
                    (pre_hash::SHA3_384, 48),
                    (pre_hash::SHA3_512, 64),
                    (pre_hash::SHAKE_128, 32),
                    (pre_hash::SHAKE_256, 64),
                ];
                for (oid, length) in lengths {
                    let digest = [7; 65];
                    let signature = sign(&digest[..length], &oid).unwrap();
                    assert!(public.hash_verify(&digest[..length], &signature, b"a context", &oid));
                    for wrong in [0, length - 1, length + 1] {
                        assert_eq!(
                            sign(&digest[..wrong], &oid).err(),
                            Some("HashML-DSA.Sign: digest length does not match the OID")
                        );
                        assert!(!public.hash_verify(
                            &digest[..wrong],
                            &signature,
                            b"a context",
                            &oid
                        ));
                    }
                }

                let (digest, oid) = ([7; 32], pre_hash::SHA2_256);
                let signature = sign(&digest, &oid).unwrap();
                assert_eq!(
                    sign(&digest, &[]).err(),
                    Some("HashML-DSA.Sign: OID is empty")
                );
                for no_oid in [&[0xFF][..], &[6], &[6, 0], &[4, 1, 0], &oid[..10]] {
                    assert_eq!(
                        sign(&digest, no_oid).err(),
                        Some("HashML-DSA.Sign: OID is not DER encoded")
                    );
                    assert!(!public.hash_verify(&digest, &signature, b"a context", no_oid));
                }
                // The same bytes, but the identifier ends before.
                let longer = [&oid[10..], &digest].concat();
                assert!(!public.hash_verify(&longer, &signature, b"a context", &oid[..10]));

                let another = [6, 3, 0x2A, 3, 4];
                for length in [1, 20, 1024] {
                    let digest = vec![9; length];
                    let signature = sign(&digest, &another).unwrap();
                    assert!(public.hash_verify(&digest, &signature, b"a context", &another));
                }
                assert!(sign(&[9; 1025], &another).is_err());
            }
        }
    };
}

of_set!(ml_dsa_44, "ml-dsa-44", 2, 8, 197);
of_set!(ml_dsa_65, "ml-dsa-65", 4, 11, 177);
of_set!(ml_dsa_87, "ml-dsa-87", 2, 15, 16);

#[cfg(feature = "ml-dsa-44")]
mod at_44 {
    use super::shake128::Shake128;
    use super::*;
    use fips204::ml_dsa_44::*;

    /// The first 64 bytes that `ChaCha8Rng` of the crate rand_chacha 0.3 gives for the seed 123.
    fn chacha() -> Given {
        let bytes = "932b30e756257dda01d47dd4a1b0e62abb8fa01f222ad8554ed821a89f82cbbb\
                     3f537f509949e758624a70946a77698673597bd30ea2d1bc2b1207afa75145c2";
        let byte = |at: usize| u8::from_str_radix(&bytes[2 * at..2 * at + 2], 16).unwrap();
        Given((0..64).map(byte).collect::<Vec<u8>>().into_iter())
    }

    /// The first 32 bytes of SHAKE128 of some bytes, in hexadecimal digits.
    fn shake128_of(bytes: &[u8]) -> String {
        let (mut shake, mut value) = (Shake128::new(), [0; 32]);
        shake.update(bytes);
        shake.finish();
        shake.read(&mut value);
        value.map(|byte| format!("{byte:02x}")).concat()
    }

    /// An array with one of its bytes changed.
    fn changed<const N: usize>(mut bytes: [u8; N], at: usize) -> [u8; N] {
        bytes[at] ^= 8;
        bytes
    }

    /// The pair and the signature that the original's test has, by their hashes.
    #[test]
    fn known_answer() {
        let mut rng = chacha();
        let (public, private) = KG::try_keygen_with_rng(&mut rng).unwrap();
        let signature = private.try_sign_with_rng(&mut rng, b"asdf", b"").unwrap();
        assert!(public.verify(b"asdf", &signature, b""));
        assert_eq!(
            [
                shake128_of(&private.into_bytes()),
                shake128_of(&public.into_bytes()),
                shake128_of(&signature)
            ],
            [
                "6b1f5ec09e8a268ab1d97ef11d7820f5162896de58d3fa3cb1ff5c1505d7a942",
                "526bf0fefdc77aaba25425b7dec223dc0e595b2ca8d7a987b3b535c1a8f4c29f",
                "6dbdccb628f0c9cafd7a8db44598dada85e1d3f756927b1788677baea491c212"
            ]
        );
    }

    #[test]
    fn changes_are_noticed() {
        let mut rng = chacha();
        let (public, private) = KG::try_keygen_with_rng(&mut rng).unwrap();
        let message = [0, 1, 2, 3, 4, 5, 6, 7];
        let signature = private.try_sign_with_rng(&mut rng, &message, &[0]).unwrap();
        for i in 0..8 {
            assert!(!public.verify(&changed(message, i), &signature, &[0]));
            assert!(!public.verify(&message, &changed(signature, 10 * i), &[0]));
            let other = changed(public.clone().into_bytes(), 10 * i);
            let other = PublicKey::try_from_bytes(other).unwrap();
            assert!(!other.verify(&message, &signature, &[0]));
            let other = changed(private.clone().into_bytes(), 70 + 10 * i);
            let other = PrivateKey::try_from_bytes(other).unwrap();
            let signed = other.try_sign_with_seed(&[7; 32], &message, &[0]).unwrap();
            assert!(!public.verify(&message, &signed, &[0]));
        }
    }

    /// A hint has one encoding: the place behind its last 1 can't be counted too.
    #[test]
    fn one_hint_has_one_signature() {
        let (public, private) = KG::keygen_from_seed(&[1; 32]);
        let mut signature = private.try_sign_with_seed(&[3; 32], b"one", b"").unwrap();
        assert!(public.verify(b"one", &signature, b""));
        signature[SIG_LEN - 1] += 1;
        assert!(!public.verify(b"one", &signature, b""));
    }

    /// A key whose t0 is not that of its other parts: signing ends after 814 attempts.
    #[test]
    fn limit_of_attempts() {
        let mut bytes = KG::keygen_from_seed(&[9; 32]).1.into_bytes();
        let mut state = 0x1234_5678_9ABC_DEF1_u64;
        for n in 0..4 * 256 {
            state ^= state << 13;
            state ^= state >> 7;
            state ^= state << 17;
            put(
                &mut bytes,
                128 + 8 * 96,
                13,
                n,
                if state & 1 == 0 { 0 } else { 8191 },
            );
        }
        let private = PrivateKey::try_from_bytes(bytes).unwrap();
        let mut seed = [0; 32];
        seed[0] = 12;
        assert_eq!(
            private.try_sign_with_seed(&seed, b"m", b"").err(),
            Some("ML-DSA.Sign: too many attempts")
        );
    }
}
