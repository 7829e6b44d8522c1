//! What this crate does itself: it draws random bytes, orders errors, and has a text of each.
#![cfg(feature = "rand_core")]

use fips204::pre_hash;
use fips204::traits::{KeyGen, SerDes, Signer, Verifier};
use fips204::{CryptoRng, FillRng, RngCore};

/// A generator that gives a byte over and over, or fails, and counts how often it was asked.
struct Counted {
    byte: Option<u8>,
    asked: Vec<usize>,
}

impl Counted {
    fn new(byte: Option<u8>) -> Self {
        Counted {
            byte,
            asked: vec![],
        }
    }

    fn fill(&mut self, out: &mut [u8]) -> bool {
        self.asked.push(out.len());
        self.byte.map(|byte| out.fill(byte)).is_some()
    }
}

impl CryptoRng for Counted {}

impl RngCore for Counted {
    fn next_u32(&mut self) -> u32 {
        unimplemented!()
    }
    fn next_u64(&mut self) -> u64 {
        unimplemented!()
    }
    fn fill_bytes(&mut self, _dest: &mut [u8]) {
        unimplemented!()
    }
    fn try_fill_bytes(&mut self, dest: &mut [u8]) -> Result<(), fips204::RngError> {
        if self.fill(dest) {
            Ok(())
        } else {
            Err(core::num::NonZeroU32::new(7).unwrap().into())
        }
    }
}

/// Signs by each call that draws, and returns the errors.
fn drawing_errors<K: Signer>(
    key: &K,
    rng: &mut (impl RngCore + CryptoRng),
    ctx: &[u8],
    digest: &[u8],
    oid: &[u8],
) -> [Option<&'static str>; 2] {
    [
        key.try_sign_with_rng(rng, b"m", ctx).err(),
        key.try_hash_sign_with_rng(rng, digest, ctx, oid).err(),
    ]
}

/// A generator of a newer `rand_core`, by the line of docs/DIFFERENCES.md.
#[cfg(feature = "ml-dsa-65-bare")]
#[test]
fn newer_generator() {
    /// Its calls are generic over the error, and of no trait that this crate knows.
    struct Newer;

    impl Newer {
        fn try_fill_bytes(&mut self, out: &mut [u8]) -> Result<(), core::convert::Infallible> {
            out.fill(9);
            Ok(())
        }
    }

    let mut rng = Newer;
    let mut rng = FillRng(|out: &mut [u8]| rng.try_fill_bytes(out).is_ok());
    let (public, _) = fips204::ml_dsa_65::try_keygen_with_rng(&mut rng).unwrap();
    assert_eq!(public, fips204::ml_dsa_65::KG::keygen_from_seed(&[9; 32]).0);
}

macro_rules! interface {
    ($test:ident, $set:ident, $feature:literal) => {
        #[cfg(feature = $feature)]
        #[test]
        fn $test() {
            use fips204::$set::{self, KG, PrivateKey, PublicKey};
            let digest = [5; 32];

            // A pair is that of the 32 bytes drawn, and asks once.
            let mut rng = Counted::new(Some(9));
            let (public, private) = $set::try_keygen_with_rng(&mut rng).unwrap();
            let (same_public, same_private) = KG::keygen_from_seed(&[9; 32]);
            assert_eq!(rng.asked, [32]);
            assert_eq!(public.clone().into_bytes(), same_public.into_bytes());
            assert_eq!(private.clone().into_bytes(), same_private.into_bytes());
            assert_eq!(
                private.get_public_key().into_bytes(),
                public.clone().into_bytes()
            );
            assert_eq!(private.is_whole(), Ok(true));
            assert_eq!(private.is_pair(), Ok(true));

            // So is a signature.
            let drawn = private.try_sign_with_rng(&mut rng, b"m", b"c").unwrap();
            assert_eq!(
                drawn,
                private.try_sign_with_seed(&[9; 32], b"m", b"c").unwrap()
            );
            assert!(public.verify(b"m", &drawn, b"c"));
            assert!(!public.verify(b"m", &drawn, b""));
            assert!(!public.verify(b"m", &drawn, &[0; 256]));
            let hashed = private
                .try_hash_sign_with_rng(&mut rng, &digest, b"c", &pre_hash::SHA2_256)
                .unwrap();
            assert_eq!(
                hashed,
                private
                    .try_hash_sign_with_seed(&[9; 32], &digest, b"c", &pre_hash::SHA2_256)
                    .unwrap()
            );
            assert!(public.hash_verify(&digest, &hashed, b"c", &pre_hash::SHA2_256));
            assert!(!public.hash_verify(&digest, &hashed, b"c", &pre_hash::SHA3_256));
            assert!(!public.verify(&digest, &hashed, b"c"));
            assert_eq!(rng.asked, [32, 32, 32]);

            // A message in pieces has the signature of the whole one, however it is cut.
            let message: [u8; 300] = core::array::from_fn(|i| i as u8);
            let whole = private
                .try_sign_with_seed(&[9; 32], &message, b"c")
                .unwrap();
            for cut in [0, 1, 60, 61, 100, 299, 300] {
                let mut hasher = private.message_hasher(b"c").unwrap();
                let mut verifier = public.message_hasher(b"c").unwrap();
                hasher.update(&message[..cut]);
                hasher.update(&message[cut..]);
                verifier.update(&message);
                let mu = hasher.finalize();
                assert_eq!(mu, verifier.finalize());
                assert_eq!(private.try_sign_mu_with_seed(&[9; 32], &mu).unwrap(), whole);
                assert!(public.verify_mu(&mu, &whole));
                assert!(!public.verify_mu(&mu, &drawn));
            }
            let mut asked_once = Counted::new(Some(9));
            let mu = private.message_hasher(b"c").unwrap().finalize();
            assert_eq!(
                private.try_sign_mu_with_rng(&mut asked_once, &mu).unwrap(),
                private.try_sign_with_seed(&[9; 32], b"", b"c").unwrap()
            );
            assert_eq!(asked_once.asked, [32]);
            for begun in [
                private.message_hasher(&[0; 256]),
                public.message_hasher(&[0; 256]),
            ] {
                assert_eq!(begun.unwrap_err().as_str(), "ML-DSA.Sign: ctx too long");
            }

            // A generator that fails has its own error at each call.
            let mut failing = Counted::new(None);
            assert_eq!(
                $set::try_keygen_with_rng(&mut failing).err(),
                Some("KeyGen: Random number generator failed")
            );
            assert_eq!(
                drawing_errors(&private, &mut failing, b"c", &digest, &pre_hash::SHA2_256),
                [
                    Some("ML-DSA.Sign: random number generator failed"),
                    Some("HashML-DSA.Sign: random number generator failed")
                ]
            );
            assert_eq!(
                private.try_sign_mu_with_rng(&mut failing, &mu),
                Err("ML-DSA.Sign_internal: random number generator failed".into())
            );
            assert_eq!(failing.asked, [32, 32, 32, 32]);

            // What is rejected beforehand does not ask.
            let mut unasked = Counted::new(None);
            assert_eq!(
                drawing_errors(
                    &private,
                    &mut unasked,
                    &[0; 256],
                    &digest,
                    &pre_hash::SHA2_256
                ),
                [
                    Some("ML-DSA.Sign: ctx too long"),
                    Some("HashML-DSA.Sign: ctx too long")
                ]
            );
            for (digest, oid, error) in [
                (&digest[..], &[][..], "HashML-DSA.Sign: OID is empty"),
                (
                    &digest[..],
                    &pre_hash::SHA2_256[..10],
                    "HashML-DSA.Sign: OID is not DER encoded",
                ),
                (
                    &[0; 1025][..],
                    &[6, 1, 42][..],
                    "Hash of message is too long, should not be more than 1KiB",
                ),
                (
                    &digest[..31],
                    &pre_hash::SHA2_256[..],
                    "HashML-DSA.Sign: digest length does not match the OID",
                ),
            ] {
                assert_eq!(
                    private
                        .try_hash_sign_with_rng(&mut unasked, digest, b"", oid)
                        .err(),
                    Some(error)
                );
                assert_eq!(
                    private
                        .try_hash_sign_with_seed(&[0; 32], digest, b"", oid)
                        .err(),
                    Some(error)
                );
                assert!(!public.hash_verify(digest, &hashed, b"", oid));
            }
            assert_eq!(unasked.asked, [0; 0]);

            // Bytes.
            let restored = PublicKey::try_from_bytes(public.clone().into_bytes()).unwrap();
            assert!(restored.verify(b"m", &drawn, b"c"));
            let mut bytes = private.clone().into_bytes();
            assert_eq!(
                PrivateKey::try_from_bytes(bytes).unwrap().into_bytes(),
                bytes
            );
            bytes[64] ^= 1;
            let other_hash = PrivateKey::try_from_bytes(bytes).unwrap();
            assert_eq!(other_hash.is_whole(), Ok(true));
            assert_eq!(other_hash.is_pair(), Ok(false));
            bytes[$set::SK_LEN - 1] ^= 1;
            assert_eq!(
                PrivateKey::try_from_bytes(bytes).unwrap().is_whole(),
                Ok(false)
            );
            bytes[128] = 0xFF;
            assert_eq!(
                PrivateKey::try_from_bytes(bytes).err(),
                Some("the private key is damaged: s1 or s2 is out of range")
            );

            // Nothing of a key or a message is shown.
            let mut hasher = public.message_hasher(b"c").unwrap();
            hasher.update(b"m");
            assert_eq!(
                format!("{private:?} {public:?} {hasher:?} {:?}", KG()),
                "PrivateKey { .. } PublicKey { .. } MessageHasher { .. } KG"
            );

            assert_eq!(
                format!("{:?} {:?}", private.prepare(), public.prepare()),
                "PreparedPrivateKey { .. } PreparedPublicKey { .. }"
            );

            #[cfg(feature = "zeroize")]
            {
                use zeroize::{Zeroize, ZeroizeOnDrop};
                fn is_wiped<T: Zeroize + ZeroizeOnDrop>(mut value: T) -> T {
                    value.zeroize();
                    value
                }
                assert_eq!(is_wiped(private.clone()).into_bytes(), [0; $set::SK_LEN]);
                assert_eq!(is_wiped(public.clone()).into_bytes(), [0; $set::PK_LEN]);
                is_wiped(hasher);
                is_wiped(public.prepare());
                is_wiped(private.prepare());
            }

            #[cfg(feature = "default-rng")]
            {
                let (public, private) = $set::try_keygen().unwrap();
                let (other, _) = KG::try_keygen().unwrap();
                assert_ne!(public.clone().into_bytes(), other.into_bytes());
                let (first, second) = (
                    private.try_sign(b"m", b"").unwrap(),
                    private.try_sign(b"m", b"").unwrap(),
                );
                assert_ne!(first, second);
                assert!(public.verify(b"m", &first, b"") && public.verify(b"m", &second, b""));
                let signature = private
                    .try_hash_sign(&digest, b"", &pre_hash::SHAKE_128)
                    .unwrap();
                assert!(public.hash_verify(&digest, &signature, b"", &pre_hash::SHAKE_128));
                let mu = [6; 64];
                let (first, second) = (
                    private.try_sign_mu(&mu).unwrap(),
                    private.prepare().try_sign_mu(&mu).unwrap(),
                );
                assert_ne!(first, second);
                assert!(public.verify_mu(&mu, &first) && public.verify_mu(&mu, &second));
            }

            #[cfg(feature = "acvp-internal")]
            {
                let mut rng = Counted::new(Some(9));
                let fixed = private.sign_mu(&mut rng, &[1; 64], false).unwrap();
                assert_eq!(rng.asked, [0; 0]);
                let hedged = private.sign_mu(&mut rng, &[1; 64], true).unwrap();
                assert_eq!(rng.asked, [32]);
                assert_ne!(fixed, hedged);
                assert!(public.verify_mu(&[1; 64], &fixed) && public.verify_mu(&[1; 64], &hedged));
                assert!(!public.verify_mu(&[2; 64], &fixed));
                assert_eq!(
                    private
                        .sign_mu(&mut Counted::new(None), &[1; 64], true)
                        .err(),
                    Some("ML-DSA.Sign_internal: random number generator failed")
                );
            }
        }
    };
}

interface!(set_44, ml_dsa_44, "ml-dsa-44-bare");
interface!(set_65, ml_dsa_65, "ml-dsa-65-bare");
interface!(set_87, ml_dsa_87, "ml-dsa-87-bare");

/// A generator of one function is asked for what is wanted, and fails where the function does.
#[test]
fn generator_of_one_function() {
    let mut asked = vec![];
    let mut rng = FillRng(|out: &mut [u8]| {
        asked.push(out.len());
        out.fill(3);
        asked.len() < 4
    });
    let mut out = [0; 5];
    assert!(rng.try_fill_bytes(&mut out).is_ok());
    assert_eq!(out, [3; 5]);
    assert_eq!(rng.next_u32(), 0x0303_0303);
    assert_eq!(rng.next_u64(), 0x0303_0303_0303_0303);
    assert!(rng.try_fill_bytes(&mut out).is_err());
    assert_eq!(format!("{rng:?}"), "FillRng { .. }");
    assert_eq!(asked, [5, 4, 8, 5]);
}
