//! ML-DSA over any two XOFs of yours: `H` takes the place of SHAKE256, and `G` that of SHAKE128.
//!
//! These are the types and calls of the proved source, under their own names; they are not those of the rest of this crate, which are
//! over SHAKE, return texts as errors, and wipe keys. Here a call returns a [`Fault`] or a [`Refusal`], and wipes nothing.
//!
//! - `ml_dsa_44`, `ml_dsa_65` and `ml_dsa_87` have the keys of each set, whose calls are those of the traits [`KeyGen`], [`Signer`],
//!   [`Verifier`] and [`SerDes`]. A private or public key is decoded when it is made; `prepare` also samples its matrix.
//! - [`MlDsa44`], [`MlDsa65`] and [`MlDsa87`] are the calls with keys and signatures as slices, and [`AnySet`] those of a set whose
//!   [name](SetName) is known when the program runs.
//!
//! What is signed is an [`Input`]. No call requires anything of its arguments that their types do not say.
//!
//! ```
//! use fips204::xofs::ml_dsa_44::{KG, PrivateKey};
//! use fips204::xofs::{FrontReader, KeyGen, SerDes, Signer, Verifier, Xof};
//!
//! /// A toy, and no hash function.
//! struct Toy;
//!
//! impl Xof for Toy {
//!     type Reader = FrontReader<4096>;
//!     const FRONT: usize = 4096;
//!
//!     fn open(parts: &[&[u8]]) -> FrontReader<4096> {
//!         let step = |state: u64| (state ^ state >> 29).wrapping_mul(0x9E37_79B9_7F4A_7C15);
//!         let bytes = parts.iter().flat_map(|part| part.iter());
//!         let mut state = bytes.fold(1, |state, byte| step(state ^ u64::from(*byte)));
//!         FrontReader::new(std::array::from_fn(|_| {
//!             state = step(state + 1);
//!             (state >> 56) as u8
//!         }))
//!     }
//! }
//!
//! # fn main() -> Result<(), fips204::xofs::Fault> {
//! let (public, private) = KG::<Toy, Toy>::keygen_from_seed(&[7; 32])?;
//! let signature = private.try_sign_with_seed(&[0; 32], b"a message", b"a context")?;
//! assert!(public.verify(b"a message", &signature, b"a context"));
//! assert!(!public.verify(b"another", &signature, b"a context"));
//!
//! let private = PrivateKey::<Toy, Toy>::try_from_bytes(private.into_bytes())?.prepare()?;
//! assert_eq!(private.try_sign_with_seed(&[0; 32], b"a message", b"a context")?, signature);
//! # Ok(())
//! # }
//! ```

use core::marker::PhantomData;

pub use crate::proved::fips204::traits::{
    CryptoRngCore, KeyGen, RngError, Scheme, SerDes, Signer, Verifier, pairwise_check,
};
pub use crate::proved::fips204::{MAX_PREHASH_LEN, MAX_SIGN_ATTEMPTS, check_pre_hash};
pub use crate::proved::fips204_base::xof::{Fill, FillReader, FrontReader};
#[cfg(feature = "sha2")]
pub use crate::proved::fips204_base::xof::{Sha256Ctr, Sha256CtrLong, Sha512Ctr, Sha512CtrLong};
use crate::proved::fips204_shake::bytes;
pub use crate::proved::fips204_shake::bytes::{Buffer, Fault, Input, Refusal, SetName};
pub use crate::proved::fips204_shake::streams::{Shake128Stream, Shake256Stream};

/// An XOF of yours: what the keys and the calls take in the places of SHAKE256 and SHAKE128.
///
/// # What an implementation owes
///
/// The compiler checks the range of `FRONT`: a program that uses a key or a call over an XOF outside it is not built. (`cargo check`
/// does not find that.)
///
/// ```compile_fail,E0080
/// use fips204::xofs::{FillReader, Fill, Xof, ml_dsa_44::KG, KeyGen};
///
/// struct Short;
///
/// impl Xof for Short {
///     type Reader = FillReader<0>;
///     const FRONT: usize = 0; // error: `FRONT` of an XOF has to be from 4096 to 1048576
///
///     fn open(parts: &[&[u8]]) -> FillReader<0> {
///         Fill::open(parts)
///     }
/// }
///
/// let pair = KG::<Short, Short>::keygen_from_seed(&[7; 32]);
/// ```
///
/// The compiler does not check the rest, and the proofs about keys and calls depend on it. An implementation that breaks a rule makes
/// no memory unsafe, but calls may then panic, and keys and signatures may be wrong.
///
/// - The input is the bytes of the parts, one after the other. The same input has the same output each time, however it is cut, in
///   every process and on every machine.
/// - An output has `FRONT` bytes, whatever the input.
/// - The reader that `open` returns has read none of them.
/// - `open` returns for every input, and does not panic.
///
/// Sampling gives up after `FRONT / 4` draws, with [`Fault::SamplingLimit`], so that every call ends, whatever the output is. How hard
/// it is to forge a signature depends on the XOFs; nothing is said of that here.
///
/// # In the proved source
pub use crate::proved::fips204_base::xof::Xof;

/// A reader of the output of an XOF of yours.
///
/// # What an implementation owes
///
/// - `read` fills its slice with the next bytes of the output, in their order, and has then read these. How the output is cut into
///   calls makes no difference.
/// - `left` is the number of bytes of the output that are not read yet.
/// - `read_four`, if an implementation has it, does what four calls of `read` do.
/// - Each call returns, and does not panic.
///
/// `read` may rely on a slice that is no longer than `left`, and `read_four` on slices of one length, of which the fourth may also be
/// empty: so the library calls them, and so must you.
///
/// # In the proved source
pub use crate::proved::fips204_base::xof::XofReader;

/// An XOF, with `FRONT` checked when the program is compiled. The types of keys and calls here put each XOF into it; you need not name
/// it.
pub struct Checked<X>(PhantomData<X>);

impl<X> core::fmt::Debug for Checked<X> {
    fn fmt(&self, f: &mut core::fmt::Formatter<'_>) -> core::fmt::Result {
        f.write_str("Checked")
    }
}

impl<X: Xof> Xof for Checked<X> {
    type Reader = X::Reader;

    const FRONT: usize = {
        assert!(
            4096 <= X::FRONT && X::FRONT <= 1_048_576,
            "`FRONT` of an XOF has to be from 4096 to 1048576"
        );
        X::FRONT
    };

    fn open(parts: &[&[u8]]) -> X::Reader {
        const { Self::FRONT };
        X::open(parts)
    }
}

/// The calls of a parameter set with keys and signatures as slices: of the one whose matrix has `K` rows and `L` columns. Each returns
/// a `Result`, whose error is a [`Refusal`]; a slice that it writes is as it was after every error.
///
/// | call | arguments | it returns |
/// |---|---|---|
/// | `keygen` | `&seed, &mut public_key, &mut private_key` | `()` |
/// | `sign` | `&private_key, &random, &input, &mut signature` | `()` |
/// | `verify` | `&public_key, &input, &signature` | `bool` |
/// | `public_key` | `&private_key, &mut public_key` | `()` |
/// | `check_private_key` | `&private_key` | `()` |
/// | `is_whole`, `is_pair` | `&private_key` | `bool` |
/// | `prepare_public_key` | `&public_key, &mut prepared` | `()` |
/// | `verify_prepared` | `&prepared, &input, &signature` | `bool` |
/// | `prepare_private_key` | `&private_key, &mut prepared` | `()` |
/// | `sign_prepared` | `&prepared, &random, &input, &mut signature` | `()` |
pub type MlDsa<const K: usize, const L: usize, H, G> = bytes::MlDsa<K, L, Checked<H>, Checked<G>>;

/// The calls of ML-DSA-44 with keys and signatures as slices.
pub type MlDsa44<H, G> = MlDsa<4, 4, H, G>;

/// The calls of ML-DSA-65 with keys and signatures as slices.
pub type MlDsa65<H, G> = MlDsa<6, 5, H, G>;

/// The calls of ML-DSA-87 with keys and signatures as slices.
pub type MlDsa87<H, G> = MlDsa<8, 7, H, G>;

/// The calls of [`MlDsa`] for a set that is known when the program runs: each takes a [`SetName`] before the other arguments.
///
/// ```
/// use fips204::xofs::{AnySet, Input, SetName, Shake128Stream, Shake256Stream};
///
/// type Calls = AnySet<Shake256Stream, Shake128Stream>;
///
/// let set = SetName::MlDsa65;
/// let mut public = vec![0; set.public_key_len()];
/// let mut private = vec![0; set.private_key_len()];
/// let mut signature = vec![0; set.signature_len()];
/// let input = Input::Message(b"a message", b"a context");
/// Calls::keygen(set, &[7; 32], &mut public, &mut private)?; // a seed is secret, and random
/// Calls::sign(set, &private, &[0; 32], &input, &mut signature)?;
/// assert!(Calls::verify(set, &public, &input, &signature)?);
/// # Ok::<(), fips204::xofs::Refusal>(())
/// ```
pub type AnySet<H, G> = bytes::AnySet<Checked<H>, Checked<G>>;

/// The module of a parameter set.
macro_rules! keys_of_set {
    ($set:ident, $name:literal) => {
        #[doc = concat!($name, ".")]
        pub mod $set {
            use super::{Checked, CryptoRngCore, Fault, KeyGen, Xof};
            use crate::proved::fips204::$set as proved;
            pub use crate::proved::fips204::$set::{
                PK_LEN, PREPARED_PK_LEN, PREPARED_SK_LEN, SIG_LEN, SK_LEN,
            };

            /// Key generation.
            pub type KG<H, G> = proved::KG<Checked<H>, Checked<G>>;

            /// A public key.
            pub type PublicKey<H, G> = proved::PublicKey<Checked<H>, Checked<G>>;

            /// A private key.
            pub type PrivateKey<H, G> = proved::PrivateKey<Checked<H>, Checked<G>>;

            /// A public key with its matrix, for many verifications.
            pub type PreparedPublicKey<H> = proved::PreparedPublicKey<Checked<H>>;

            /// A private key with its matrix, for many signatures.
            pub type PreparedPrivateKey<H> = proved::PreparedPrivateKey<Checked<H>>;

            /// Makes a key pair from 32 bytes of a generator, which is asked once. It takes the bytes of stack that
            /// `stack::KEYGEN` of the set over SHAKE names, and what your XOFs take.
            ///
            /// # Errors
            /// The generator failed, or rejection sampling reached its limit.
            ///
            /// ```
            #[doc = concat!("use fips204::xofs::", stringify!($set), "::try_keygen_with_rng;")]
            /// use fips204::xofs::{CryptoRngCore, Fault, Shake128Stream, Shake256Stream};
            ///
            /// # fn example(your_generator: &mut impl CryptoRngCore) -> Result<(), Fault> {
            /// let (public, private) =
            ///     try_keygen_with_rng::<Shake256Stream, Shake128Stream, _>(your_generator)?;
            /// # let _ = (public, private);
            /// # Ok(())
            /// # }
            /// ```
            pub fn try_keygen_with_rng<H: Xof, G: Xof, R: CryptoRngCore>(
                rng: &mut R,
            ) -> Result<(PublicKey<H, G>, PrivateKey<H, G>), Fault> {
                KG::<H, G>::try_keygen_with_rng(rng)
            }
        }
    };
}

keys_of_set!(ml_dsa_44, "ML-DSA-44");
keys_of_set!(ml_dsa_65, "ML-DSA-65");
keys_of_set!(ml_dsa_87, "ML-DSA-87");
