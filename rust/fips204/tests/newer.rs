//! The traits of `signature` 3, `pkcs8` 0.11 and `spki` 0.8, and generators of `rand_core` 0.10.
#![cfg(all(feature = "signature-3", feature = "pkcs8", feature = "rand_core-0_10"))]

use core::convert::Infallible;
use fips204::traits::{KeyGen, SerDes};
use fips204::{MlDsaParams, of_rand_core_0_10};
use pkcs8::spki::{AssociatedAlgorithmIdentifier, SignatureAlgorithmIdentifier};
use pkcs8::spki::{DynSignatureAlgorithmIdentifier, SignatureBitStringEncoding};
use pkcs8::{DecodePrivateKey, DecodePublicKey, EncodePrivateKey, EncodePublicKey, Error, spki};
use rand_core_0_10::{TryCryptoRng, TryRng};
use signature_3::{Keypair, RandomizedSigner, SignatureEncoding, Signer, Verifier};

/// A generator of one byte, or one that fails.
struct Given<E>(Result<u8, E>);

impl<E: Copy + core::error::Error> TryRng for Given<E> {
    type Error = E;

    fn try_next_u32(&mut self) -> Result<u32, E> {
        self.0.map(u32::from)
    }
    fn try_next_u64(&mut self) -> Result<u64, E> {
        self.0.map(u64::from)
    }
    fn try_fill_bytes(&mut self, out: &mut [u8]) -> Result<(), E> {
        self.0.map(|byte| out.fill(byte))
    }
}

impl<E: Copy + core::error::Error> TryCryptoRng for Given<E> {}

fn nines() -> Given<Infallible> {
    Given(Ok(9))
}

/// Code that knows of no scheme: reads a key, signs, and verifies under a public key that was written and read. It gives the
/// signature.
fn used<K, V, S>(der: &[u8]) -> Vec<u8>
where
    K: DecodePrivateKey + Signer<S> + RandomizedSigner<S> + Keypair + SignatureAlgorithmIdentifier,
    K::VerifyingKey: EncodePublicKey + Verifier<S>,
    V: DecodePublicKey + EncodePublicKey + Verifier<S> + SignatureAlgorithmIdentifier,
    S: SignatureEncoding + SignatureBitStringEncoding + AssociatedAlgorithmIdentifier + PartialEq,
{
    let key = K::from_pkcs8_der(der).unwrap();
    let written = key.verifying_key().to_public_key_der().unwrap();
    let public = V::from_public_key_der(written.as_bytes()).unwrap();
    assert_eq!(public.to_public_key_der().unwrap(), written);
    let made = key.sign(b"a message");
    assert!(public.verify(b"a message", &made).is_ok());
    assert!(public.verify(b"another", &made).is_err());
    let drawn = key.try_sign_with_rng(&mut nines(), b"a message").unwrap();
    assert!(drawn != made && public.verify(b"a message", &drawn).is_ok());
    assert!(
        key.try_sign_with_rng(&mut Given(Err(core::fmt::Error)), b"")
            .is_err()
    );
    assert_eq!(
        made.to_bitstring().unwrap().raw_bytes(),
        made.to_bytes().as_ref()
    );
    let oid = S::ALGORITHM_IDENTIFIER.oid;
    assert_eq!(K::SIGNATURE_ALGORITHM_IDENTIFIER.oid, oid);
    assert_eq!(V::SIGNATURE_ALGORITHM_IDENTIFIER.oid, oid);
    made.to_bytes().as_ref().to_vec()
}

macro_rules! tests_of_a_set {
    ($set:ident, $params:ident, $feature:literal, $oid:literal) => {
        #[cfg(feature = $feature)]
        #[test]
        fn $set() {
            use fips204::$set::*;
            let of_pair = Seed::from_bytes(&[7; 32]);
            let (public, private) = of_pair.keygen().unwrap();
            let mut seed = [0; Seed::DER_LEN];
            of_pair.write_der(&mut seed).unwrap();
            let mut both = [0; Seed::BOTH_DER_LEN];
            of_pair.write_both_der(&mut both).unwrap();
            let mut expanded = [0; PrivateKey::DER_LEN];
            private.write_der(&mut expanded).unwrap();
            let plain =
                fips204::traits::Signer::try_sign_with_seed(&private, &[0; 32], b"a message", b"");
            for der in [&seed[..], &both, &expanded] {
                let made = used::<PrivateKey, PublicKey, Signature>(der);
                assert_eq!(made, plain.unwrap());
                let made = used::<PreparedPrivateKey, PreparedPublicKey, Signature>(der);
                assert_eq!(made, plain.unwrap());
            }
            assert_eq!(of_pair.to_pkcs8_der().unwrap().as_bytes(), seed);
            for der in [&seed[..], &both] {
                let read = Seed::from_pkcs8_der(der).unwrap();
                assert_eq!(read.as_bytes(), of_pair.as_bytes());
            }
            let identifier = private.signature_algorithm_identifier().unwrap();
            assert_eq!(identifier.oid.to_string(), $oid);
            assert!(identifier.parameters.is_none());
            assert_eq!(private.verifying_key(), public);
            let mut der = [0; PublicKey::DER_LEN];
            public.write_der(&mut der).unwrap();
            assert_eq!(public.to_public_key_der().unwrap().as_bytes(), der);

            // What is refused: another set, and a key whose parts do not belong together.
            der[16] += 1;
            let another = PublicKey::from_public_key_der(&der);
            assert!(
                matches!(another, Err(spki::Error::OidUnknown { .. })),
                "{another:?}"
            );
            both[40] ^= 1;
            let refused = PrivateKey::from_pkcs8_der(&both);
            assert!(
                matches!(refused, Err(Error::KeyMalformed(_))),
                "{refused:?}"
            );
            assert!(PrivateKey::from_pkcs8_der(&seed[..53]).is_err());
            for der in [&both[..], &expanded] {
                let refused = Seed::from_pkcs8_der(der);
                assert!(
                    matches!(refused, Err(Error::KeyMalformed(_))),
                    "{refused:?}"
                );
            }
            seed[17] += 1;
            let another = Seed::from_pkcs8_der(&seed);
            assert!(
                matches!(
                    another,
                    Err(Error::PublicKey(spki::Error::OidUnknown { .. }))
                ),
                "{another:?}"
            );

            // A generator of rand_core 0.10 for the other calls.
            let mut rng = nines();
            let (drawn, _) = try_keygen_with_rng(&mut of_rand_core_0_10(&mut rng)).unwrap();
            assert_eq!(drawn, KG::keygen_from_seed(&[9; 32]).0);
            let mut failing = Given(Err(core::fmt::Error));
            assert!(try_keygen_with_rng(&mut of_rand_core_0_10(&mut failing)).is_err());
            assert_eq!(
                fips204::$params::NAME.replace("ML-DSA-", "ml_dsa_"),
                stringify!($set)
            );
            assert_eq!(private.into_bytes().len(), SK_LEN);
        }
    };
}

tests_of_a_set!(
    ml_dsa_44,
    MlDsa44,
    "ml-dsa-44-bare",
    "2.16.840.1.101.3.4.3.17"
);
tests_of_a_set!(
    ml_dsa_65,
    MlDsa65,
    "ml-dsa-65-bare",
    "2.16.840.1.101.3.4.3.18"
);
tests_of_a_set!(
    ml_dsa_87,
    MlDsa87,
    "ml-dsa-87-bare",
    "2.16.840.1.101.3.4.3.19"
);
