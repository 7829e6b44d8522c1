//! Seeds: drawn, of bytes, in files, and the pairs that they make.

macro_rules! tests_of_a_set {
    ($set:ident, $feature:literal, $oid:literal, $another:literal) => {
        #[cfg(feature = $feature)]
        mod $set {
            use fips204::traits::KeyGen;
            use fips204::$set::{KG, PrivateKey, PublicKey, Seed};

            #[test]
            fn pairs() {
                for byte in 0..3 {
                    let seed = Seed::from_bytes(&[byte; 32]);
                    let (public, private) = seed.clone().keygen().unwrap();
                    let (wanted, of_wanted) = KG::keygen_from_seed(&[byte; 32]);
                    assert_eq!(public, wanted);
                    assert_eq!(private.as_bytes(), of_wanted.as_bytes());
                    assert_eq!(seed.as_bytes(), &[byte; 32]);
                    assert_eq!(format!("{seed:?}"), "Seed { .. }");
                }
            }

            /// A generator is asked once, for 32 bytes. One that fails gives no seed.
            #[cfg(feature = "rand_core")]
            #[test]
            fn of_a_generator() {
                use fips204::FillRng;
                let mut asked = Vec::new();
                let mut rng = FillRng(|out: &mut [u8]| {
                    asked.push(out.len());
                    out.fill(9);
                    out[0] = asked.len() as u8;
                    true
                });
                for first in [1, 2] {
                    let seed = Seed::try_generate_with_rng(&mut rng).unwrap();
                    assert_eq!(
                        (seed.as_bytes()[0], &seed.as_bytes()[1..]),
                        (first, &[9; 31][..])
                    );
                }
                assert_eq!(asked, [32, 32]);

                let mut failing = FillRng(|out: &mut [u8]| {
                    out.fill(9);
                    false
                });
                let refused = Seed::try_generate_with_rng(&mut failing).unwrap_err();
                assert_eq!(refused.as_str(), "KeyGen: Random number generator failed");
            }

            #[cfg(feature = "default-rng")]
            #[test]
            fn draws_differ() {
                let drawn = || *Seed::try_generate().unwrap().as_bytes();
                let all = std::collections::HashSet::from([drawn(), drawn(), drawn(), [0; 32]]);
                assert_eq!(all.len(), 4);
            }

            /// The DER is that of RFC 9881, appendix C.1, for each set.
            #[test]
            fn der() {
                let bytes = std::array::from_fn(|i| i as u8);
                let seed = Seed::from_bytes(&bytes);
                let mut der = [0; Seed::DER_LEN];
                seed.write_der(&mut der).unwrap();
                let before: &[u8] =
                    b"\x30\x34\x02\x01\x00\x30\x0b\x06\x09\x60\x86\x48\x01\x65\x03\x04\x03";
                let wanted = [before, &[$oid, 4, 0x22, 0x80, 0x20], &bytes[..]].concat();
                assert_eq!(der[..], wanted);
                assert_eq!(Seed::from_der(&der).unwrap().as_bytes(), &bytes);
                let said = |der: &[u8]| Seed::from_der(der).err().map(|it| it.as_str());
                assert_eq!(said(&der), None);
                assert_eq!(said(&der[..53]), Some("its DER is cut short"));
                der[17] = $another;
                assert_eq!(said(&der), Some("its key is one of another parameter set"));

                // Both parts, which have to belong together.
                let mut both = [0; Seed::BOTH_DER_LEN];
                let (public, private) = seed.keygen().unwrap();
                seed.write_both_der(&mut both).unwrap();
                assert_eq!(Seed::from_der(&both).unwrap().as_bytes(), &bytes);
                let read = PrivateKey::from_der(&both).unwrap();
                assert_eq!(read.as_bytes(), private.as_bytes());
                both[Seed::BOTH_DER_LEN - 1] ^= 1;
                let inconsistent = "the private key is not consistent";
                assert_eq!(said(&both), Some(inconsistent));
                let refused = PrivateKey::from_der(&both).unwrap_err();
                assert_eq!(refused.as_str(), inconsistent);

                // Files without a seed.
                let mut file = [0; PublicKey::DER_LEN];
                public.write_der(&mut file).unwrap();
                assert_eq!(said(&file), Some("its DER is damaged"));
                let mut file = [0; PrivateKey::DER_LEN];
                private.write_der(&mut file).unwrap();
                let no_seed = "it has no seed: an expanded key does not reveal its seed";
                assert_eq!(said(&file), Some(no_seed));

                for written in [seed.write_der(&mut file), seed.write_both_der(&mut file)] {
                    assert_eq!(
                        written.unwrap_err().as_str(),
                        "an array has the wrong length"
                    );
                }
            }

            /// A seed that is moved has its bytes where they were.
            #[cfg(feature = "alloc")]
            #[test]
            fn moved_without_a_copy() {
                let seed = Seed::from_bytes(&[7; 32]);
                let place = seed.as_bytes().as_ptr();
                assert_eq!(Box::new(Some(seed)).unwrap().as_bytes().as_ptr(), place);
            }

            #[cfg(feature = "zeroize")]
            #[test]
            fn wiped_is_of_no_use() {
                use zeroize::Zeroize;
                let mut seed = Seed::from_bytes(&[7; 32]);
                seed.zeroize();
                assert_eq!(seed.as_bytes(), &[0; 32]);
                let wiped = fips204::Error::from("the key or the hasher was wiped");
                for seed in [seed.clone(), seed] {
                    assert_eq!(seed.keygen().err(), Some(wiped));
                    assert_eq!(seed.write_der(&mut [0; Seed::DER_LEN]), Err(wiped));
                    assert_eq!(
                        seed.write_both_der(&mut [0; Seed::BOTH_DER_LEN]),
                        Err(wiped)
                    );
                    #[cfg(feature = "alloc")]
                    assert_eq!(seed.to_pem(), Err(wiped));
                }
            }
        }
    };
}

tests_of_a_set!(ml_dsa_44, "ml-dsa-44-bare", 0x11, 0x12);
tests_of_a_set!(ml_dsa_65, "ml-dsa-65-bare", 0x12, 0x13);
tests_of_a_set!(ml_dsa_87, "ml-dsa-87-bare", 0x13, 0x11);
