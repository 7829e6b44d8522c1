//! The traits of `signature` 2 sign and verify as the plain calls do under the empty context.
#![cfg(feature = "signature")]

use fips204::FillRng;
use fips204::traits::{KeyGen, SerDes};
use signature::{Keypair, RandomizedSigner, SignatureEncoding, Signer, Verifier};

/// Code that knows of no scheme.
fn signed_and_verified<S, K>(key: &K, message: &[u8]) -> S
where
    S: SignatureEncoding + PartialEq,
    K: Signer<S> + Keypair<VerifyingKey: Verifier<S>>,
{
    let made = key.sign(message);
    let stored = made.to_bytes();
    let read = S::try_from(stored.as_ref()).ok().unwrap();
    assert!(read == made && stored.as_ref().len() == made.encoded_len());
    assert!(key.verifying_key().verify(message, &made).is_ok());
    assert!(key.verifying_key().verify(b"another", &made).is_err());
    made
}

macro_rules! tests_of_a_set {
    ($set:ident, $feature:literal) => {
        #[cfg(feature = $feature)]
        #[test]
        fn $set() {
            use fips204::$set::{KG, PrivateKey, SIG_LEN, SK_LEN, Signature};
            let (public, private) = KG::keygen_from_seed(&[7; 32]);
            let made: Signature = signed_and_verified(&private, b"a message");
            let plain =
                fips204::traits::Signer::try_sign_with_seed(&private, &[0; 32], b"a message", b"");
            assert_eq!(Ok(<[u8; SIG_LEN]>::from(made)), plain);
            assert_eq!(private.verifying_key(), public);
            assert!(Signature::try_from(&[0; SIG_LEN - 1][..]).is_err());

            let mut fixed = FillRng(|out: &mut [u8]| {
                out.fill(9);
                true
            });
            let drawn: Signature =
                RandomizedSigner::try_sign_with_rng(&private, &mut fixed, b"m").unwrap();
            let plain = fips204::traits::Signer::try_sign_with_seed(&private, &[9; 32], b"m", b"");
            assert_eq!(Ok(drawn.to_bytes()), plain);
            let mut failing = FillRng(|_: &mut [u8]| false);
            let refused: Result<Signature, _> =
                RandomizedSigner::try_sign_with_rng(&private, &mut failing, b"m");
            assert!(refused.is_err());

            // A damaged key signs or is an error, and does not panic.
            let mut bytes = private.into_bytes();
            bytes[SK_LEN - 1] ^= 1;
            let damaged = PrivateKey::try_from_bytes(bytes).unwrap();
            let result: Result<Signature, _> = damaged.try_sign(b"m");
            assert!(result.is_ok_and(|it| public.verify(b"another", &it).is_err()));
        }
    };
}

tests_of_a_set!(ml_dsa_44, "ml-dsa-44-bare");
tests_of_a_set!(ml_dsa_65, "ml-dsa-65-bare");
tests_of_a_set!(ml_dsa_87, "ml-dsa-87-bare");
