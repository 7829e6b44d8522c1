//! Prepared keys return what the keys do that they were made of.

macro_rules! tests_of_a_set {
    ($name:ident, $set:ident) => {
        mod $name {
            use fips204::pre_hash::SHA2_256;
            use fips204::traits::{KeyGen, Signer, Verifier};
            use fips204::$set::{KG, PreparedPrivateKey, PreparedPublicKey, SIG_LEN};

            /// Signatures and verdicts are those of the plain keys: of a message, a digest and a hash mu.
            #[test]
            fn answer_as_the_plain_keys() {
                let (public, private) = KG::keygen_from_seed(&[3; 32]);
                let (checks, signs) = (public.prepare(), private.prepare());
                let (message, ctx, random): (&[u8], &[u8], _) =
                    (b"a message", b"a context", [9; 32]);

                let signature = private.try_sign_with_seed(&random, message, ctx).unwrap();
                assert_eq!(
                    signs.try_sign_with_seed(&random, message, ctx).unwrap(),
                    signature
                );
                assert!(checks.verify(message, &signature, ctx));
                assert!(!checks.verify(b"another message", &signature, ctx));
                assert!(!checks.verify(message, &signature, b"another context"));
                let mut changed = signature;
                changed[SIG_LEN / 2] ^= 1;
                assert!(!checks.verify(message, &changed, ctx));

                let digest = [5; 32];
                let signature = private
                    .try_hash_sign_with_seed(&random, &digest, ctx, &SHA2_256)
                    .unwrap();
                assert_eq!(
                    signs
                        .try_hash_sign_with_seed(&random, &digest, ctx, &SHA2_256)
                        .unwrap(),
                    signature
                );
                assert!(checks.hash_verify(&digest, &signature, ctx, &SHA2_256));
                assert!(!checks.verify(&digest, &signature, ctx));

                let mu = [6; 64];
                let signature = private.try_sign_mu_with_seed(&random, &mu).unwrap();
                assert_eq!(
                    signs.try_sign_mu_with_seed(&random, &mu).unwrap(),
                    signature
                );
                assert!(checks.verify_mu(&mu, &signature));
                assert!(!checks.verify_mu(&[7; 64], &signature));
                assert_eq!(signs.get_public_key(), public);
                #[cfg(feature = "rand_core")]
                {
                    let mut fixed = fips204::FillRng(|out: &mut [u8]| {
                        out.fill(9);
                        true
                    });
                    let drawn = signs.try_sign_mu_with_rng(&mut fixed, &mu).unwrap();
                    assert_eq!(drawn, signature);
                }
                assert_eq!(checks.key(), public);
                assert_eq!(signs.key().as_bytes(), private.as_bytes());
            }

            /// Pieces of a message have the hash that the plain keys give them.
            #[test]
            fn hash_as_the_plain_keys() {
                let (public, private) = KG::keygen_from_seed(&[3; 32]);
                let mut hashers = [
                    public.message_hasher(b"c").unwrap(),
                    private.message_hasher(b"c").unwrap(),
                    public.prepare().message_hasher(b"c").unwrap(),
                    private.prepare().message_hasher(b"c").unwrap(),
                ];
                hashers.iter_mut().for_each(|it| it.update(b"a message"));
                let [first, others @ ..] = hashers.map(|it| it.finalize());
                assert_eq!(others, [first; 3]);
                assert!(public.prepare().message_hasher(&[0; 256]).is_err());
                assert!(private.prepare().message_hasher(&[0; 256]).is_err());
            }

            /// Errors are those of the plain keys.
            #[test]
            fn refuse_as_the_plain_keys() {
                let (_, private) = KG::keygen_from_seed(&[4; 32]);
                let signs = private.prepare();
                let long = [0; 256];
                let plain = private.try_sign_with_seed(&[0; 32], b"", &long);
                assert!(plain.is_err());
                assert_eq!(signs.try_sign_with_seed(&[0; 32], b"", &long), plain);
                let plain = private.try_hash_sign_with_seed(&[0; 32], &[0; 31], b"", &SHA2_256);
                assert!(plain.is_err());
                assert_eq!(
                    signs.try_hash_sign_with_seed(&[0; 32], &[0; 31], b"", &SHA2_256),
                    plain
                );
            }

            /// The types have names, as a struct of one's own needs them, and copies are alike.
            #[test]
            fn are_kept_and_copied() {
                struct Kept {
                    checks: PreparedPublicKey,
                    signs: PreparedPrivateKey,
                }
                let (public, private) = KG::keygen_from_seed(&[5; 32]);
                let kept = Kept {
                    checks: public.prepare(),
                    signs: private.prepare(),
                };
                let signature = kept
                    .signs
                    .clone()
                    .try_sign_with_seed(&[1; 32], b"m", b"")
                    .unwrap();
                assert!(kept.checks.clone().verify(b"m", &signature, b""));
                let (other, _) = KG::keygen_from_seed(&[6; 32]);
                assert!(!other.prepare().verify(b"m", &signature, b""));
            }
        }
    };
}

#[cfg(feature = "ml-dsa-44-bare")]
tests_of_a_set!(set_44, ml_dsa_44);
#[cfg(feature = "ml-dsa-65-bare")]
tests_of_a_set!(set_65, ml_dsa_65);
#[cfg(feature = "ml-dsa-87-bare")]
tests_of_a_set!(set_87, ml_dsa_87);
