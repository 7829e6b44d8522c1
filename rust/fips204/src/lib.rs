#![cfg_attr(
    all(feature = "ml-dsa-65-bare", feature = "default-rng"),
    doc = include_str!("../README.md")
)]
#![cfg_attr(
    not(all(feature = "ml-dsa-65-bare", feature = "default-rng")),
    doc = "ML-DSA (FIPS 204) with the interface of the crate fips204 0.5.0."
)]
#![cfg_attr(not(feature = "default-rng"), no_std)]
#![deny(missing_docs, missing_debug_implementations, unsafe_code)]

#[cfg(feature = "alloc")]
extern crate alloc;
#[cfg(all(test, not(feature = "default-rng")))]
extern crate std;

mod der;
mod error;
#[cfg(feature = "pkcs8")]
mod key_info;
mod levels;
mod params;
mod pieces;
pub mod pre_hash;
mod prepared;
// (laid out as its source is)
#[cfg(not(feature = "__proved"))]
#[rustfmt::skip]
mod proved;
#[cfg(feature = "__proved")]
#[doc(hidden)]
#[rustfmt::skip]
pub mod proved;
#[cfg(feature = "__proved")]
#[doc(hidden)]
pub mod proved_for_tests;
#[cfg(feature = "rand_core")]
mod rng;
mod seed;
mod set;
#[cfg(feature = "sha2")]
#[doc(hidden)] // for tests of the repository
pub mod sha2_arrays;
#[cfg(any(feature = "signature", feature = "signature-3", feature = "pkcs8"))]
mod signatures;
#[cfg_attr(
    all(target_arch = "wasm32", target_feature = "simd128"),
    path = "simd/wasm32.rs"
)]
mod simd;
pub mod traits;
mod wiped;
pub mod xofs;

pub use error::Error;
#[cfg(feature = "ml-dsa-44-bare")]
pub use params::MlDsa44;
#[cfg(feature = "ml-dsa-65-bare")]
pub use params::MlDsa65;
#[cfg(feature = "ml-dsa-87-bare")]
pub use params::MlDsa87;
pub use params::MlDsaParams;
pub use pieces::MessageHasher;
#[cfg(feature = "rand_core")]
pub use rand_core::{CryptoRng, Error as RngError, RngCore};
#[cfg(feature = "rand_core")]
pub use rng::FillRng;
#[cfg(feature = "rand_core-0_10")]
pub use rng::of_rand_core_0_10;
pub use seed::Seed;
pub use set::{PrivateKey, PublicKey};

/// How many bytes of stack the calls of a [`MessageHasher`] take at most, and those that begin one.
pub const STACK_MU: usize = 3_328;

/// ML-DSA-44, of security category 2.
#[cfg(feature = "ml-dsa-44-bare")]
pub mod ml_dsa_44 {
    crate::set::parameter_set!("ml_dsa_44", MlDsa44, 1312, 2560, 2420);
    crate::prepared::prepared_keys!("ml_dsa_44", 17760, 18944);
    crate::set::stack!(
        KEYGEN: 55_296,
        SIGN: 115_712,
        VERIFY: 52_224,
        PUBLIC_KEY: 88_064,
        CHECK: 49_152,
        WHOLE: 72_704,
        PAIR: 75_776,
        PREPARE_PUBLIC_KEY: 40_960,
        VERIFY_PREPARED: 43_008,
        PREPARE_PRIVATE_KEY: 63_488,
        SIGN_PREPARED: 115_712,
        DER: 81_920,
    );
}

/// ML-DSA-65, of security category 3.
#[cfg(feature = "ml-dsa-65-bare")]
pub mod ml_dsa_65 {
    crate::set::parameter_set!("ml_dsa_65", MlDsa65, 1952, 4032, 3309);
    crate::prepared::prepared_keys!("ml_dsa_65", 32736, 34752);
    crate::set::stack!(
        KEYGEN: 72_704,
        SIGN: 152_576,
        VERIFY: 65_536,
        PUBLIC_KEY: 126_976,
        CHECK: 69_632,
        WHOLE: 103_424,
        PAIR: 108_544,
        PREPARE_PUBLIC_KEY: 74_752,
        VERIFY_PREPARED: 51_200,
        PREPARE_PRIVATE_KEY: 98_304,
        SIGN_PREPARED: 152_576,
        DER: 113_664,
    );
}

/// ML-DSA-87, of security category 5.
#[cfg(feature = "ml-dsa-87-bare")]
pub mod ml_dsa_87 {
    crate::set::parameter_set!("ml_dsa_87", MlDsa87, 2592, 4896, 4627);
    crate::prepared::prepared_keys!("ml_dsa_87", 60000, 62240);
    crate::set::stack!(
        KEYGEN: 92_160,
        SIGN: 208_896,
        VERIFY: 79_872,
        PUBLIC_KEY: 168_960,
        CHECK: 92_160,
        WHOLE: 137_216,
        PAIR: 146_432,
        PREPARE_PUBLIC_KEY: 115_712,
        VERIFY_PREPARED: 66_560,
        PREPARE_PRIVATE_KEY: 143_360,
        SIGN_PREPARED: 208_896,
        DER: 151_552,
    );
}

#[cfg(test)]
mod tests {
    extern crate std;

    /// The package is of the same version as the library for C.
    #[test]
    fn version() {
        let number = crate::proved::mldsa_c::pre_hash::mldsa_version();
        let [_, first, second, third] = number.to_be_bytes();
        let version = std::format!("{first}.{second}.{third}");
        assert_eq!(version, env!("CARGO_PKG_VERSION"));
    }
}
