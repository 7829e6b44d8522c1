//! The accumulated values that C2SP publishes for ML-DSA (CCTV): seeds are read from SHAKE128 of nothing; each public key and
//! its signature of the empty message under the empty context, with 32 zeros, go into a second SHAKE128, whose first 32 bytes
//! are the value. The 100 keys and signatures take a second; `bench/against-rust` runs the 10,000.

mod shake128;

use fips204::traits::{KeyGen, SerDes, Signer, Verifier};
use shake128::Shake128;

macro_rules! accumulated {
    ($test:ident, $set:ident, $feature:literal, $value:literal) => {
        #[cfg(feature = $feature)]
        #[test]
        fn $test() {
            let (mut seeds, mut all) = (Shake128::new(), Shake128::new());
            seeds.finish();
            for _ in 0..100 {
                let mut xi = [0; 32];
                seeds.read(&mut xi);
                let (public, private) = fips204::$set::KG::keygen_from_seed(&xi);
                let signature = private.try_sign_with_seed(&[0; 32], b"", b"").unwrap();
                assert!(public.verify(b"", &signature, b""));
                all.update(&public.into_bytes());
                all.update(&signature);
            }
            let mut value = [0; 32];
            all.finish();
            all.read(&mut value);
            assert_eq!(value.map(|byte| format!("{byte:02x}")).concat(), $value);
        }
    };
}

accumulated!(
    set_44,
    ml_dsa_44,
    "ml-dsa-44-bare",
    "d51148e1f9f4fa1a723a6cf42e25f2a99eb5c1b378b3d2dbbd561b1203beeae4"
);
accumulated!(
    set_65,
    ml_dsa_65,
    "ml-dsa-65-bare",
    "8358a1843220194417cadbc2651295cd8fc65125b5a5c1a239a16dc8b57ca199"
);
accumulated!(
    set_87,
    ml_dsa_87,
    "ml-dsa-87-bare",
    "8c3ad714777622b8f21ce31bb35f71394f23bc0fcf3c78ace5d608990f3b061b"
);
