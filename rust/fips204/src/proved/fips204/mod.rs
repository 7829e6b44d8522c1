// Made by tools/erase of crates/fips204/src/lib.rt. Change that, not this.
//! ML-DSA, the module-lattice signature scheme of FIPS 204, over any two XOFs.
//!
//! `H` replaces SHAKE256 of the standard and `G` SHAKE128; both are type parameters that implement `xof::Xof`. The
//! crate `fips204_shake` has each set over SHAKE itself. Contracts describe results in terms of the output of these two
//! XOFs. No call allocates; none wipes memory or is claimed to run in constant time.
//!
//! Generating, signing and verifying, over two XOFs for tests, from `crates/mldsa_examples/src/using.rt`:
//!
//! ```ignore
//! type Keys = ml_dsa_44::KG<Sha256Ctr, Sha512Ctr>;
//! ..
//!     let (public, private) = Keys::keygen_from_seed(seed)?;
//!     Ok((public.into_bytes(), private.into_bytes()))
//! ..
//!     let private = Private::try_from_bytes(key)?;
//!     private.try_sign_with_seed(random, message, CONTEXT)
//! ..
//!     let public = Public::try_from_bytes(key)?;
//!     Ok(public.verify(message, signature, CONTEXT))
//! ```
//!
//! | FIPS 204, Algorithm | here |
//! |---|---|
//! | 1, 6 | `traits::KeyGen`; `ml_dsa::key_gen`, `ml_dsa::key_gen_internal` |
//! | 2, 4, 7 | `traits::Signer`; `ml_dsa::sign_internal` |
//! | 3, 5, 8 | `traits::Verifier`; `ml_dsa::verify_internal` |
//! | 9 to 21 | `conversion` |
//! | 22 to 28 | `traits::SerDes`; `encodings` |
//! | 29 to 34 | `hashing` |
//! | 35 to 40 | `high_low` |
//! | 41, 42 | `ntt` |
//! | 43 to 49 | `helpers` |

pub mod input;
mod keys;
pub mod ml_dsa;
pub mod ml_dsa_44;
pub mod ml_dsa_65;
pub mod ml_dsa_87;
pub mod sets;
pub mod traits;
pub mod types;

pub use crate::proved::fips204_base::{
    D, Fault, Q, ZETA, conversion, encodings, fault, hashing, helpers, high_low, lanes, ntt, xof,
};
pub use input::Input;
pub use ml_dsa::MAX_SIGN_ATTEMPTS;
pub use sets::SetName;
pub use traits::RngError;
pub use types::pre_hash;
pub use types::pre_hash::{MAX_PREHASH_LEN, check_pre_hash};
