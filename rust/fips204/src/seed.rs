//! A key pair as its seed, which is what to store of it.
#![allow(dead_code)] // no set may be chosen

use crate::Error;
use crate::error::WIPED;
use crate::proved::fips204_shake::bytes::SetName;
use crate::set::{Named, PrivateKey, PublicKey, Set, keygen};
use crate::wiped::{Held, held, shows_nothing};
#[cfg(feature = "rand_core")]
use crate::{CryptoRng, RngCore, proved::fips204_shake::bytes::Fault, rng::draw};

/// The seed of a key pair, which is wiped when it is dropped. With the feature `alloc` it is a pointer to its bytes, so that a move
/// leaves no copy of them. Store a private key in this form: `mlsign`, OpenSSL, RustCrypto, Python's cryptography and WebCrypto read
/// it, and the last three read no expanded key.
///
/// ```
/// # #[cfg(all(feature = "ml-dsa-65-bare", feature = "default-rng"))] {
/// use fips204::ml_dsa_65::Seed;
///
/// let seed = Seed::try_generate()?;
/// let file = seed.to_pem()?;
/// let (public, private) = seed.keygen()?;
/// assert_eq!(Seed::from_pem(&file)?.keygen()?.0, public);
/// # let _ = private;
/// # }
/// # Ok::<(), fips204::Error>(())
/// ```
#[derive(Clone)]
pub struct Seed<const PK: usize, const SK: usize, const SIG: usize>(pub(crate) Held<32>);

shows_nothing!(Seed<PK, SK, SIG>);

impl<const PK: usize, const SK: usize, const SIG: usize> Seed<PK, SK, SIG>
where
    Set<PK, SK, SIG>: Named,
{
    pub(crate) const SET: SetName = Set::<PK, SK, SIG>::NAME;

    /// Draws a seed from the operating system's generator. Takes no stack of its own.
    ///
    /// # Errors
    /// The generator failed.
    ///
    /// ```
    /// # #[cfg(all(feature = "ml-dsa-65-bare", feature = "default-rng"))] {
    /// use fips204::ml_dsa_65::Seed;
    ///
    /// let (public, private) = Seed::try_generate()?.keygen()?;
    /// # let _ = (public, private);
    /// # }
    /// # Ok::<(), fips204::Error>(())
    /// ```
    #[cfg(feature = "default-rng")]
    pub fn try_generate() -> Result<Self, Error> {
        Self::try_generate_with_rng(&mut crate::rng::system())
    }

    /// Draws a seed from a generator, which is asked once. Takes no stack of its own.
    ///
    /// # Errors
    /// The generator failed.
    ///
    /// ```
    /// # #[cfg(feature = "ml-dsa-65-bare")] {
    /// # use fips204::{CryptoRng, RngCore};
    /// use fips204::ml_dsa_65::Seed;
    ///
    /// # fn example(your_generator: &mut (impl RngCore + CryptoRng)) -> Result<(), fips204::Error> {
    /// let (public, private) = Seed::try_generate_with_rng(your_generator)?.keygen()?;
    /// # let _ = (public, private);
    /// # Ok(())
    /// # }
    /// # }
    /// ```
    #[cfg(feature = "rand_core")]
    pub fn try_generate_with_rng(rng: &mut (impl RngCore + CryptoRng)) -> Result<Self, Error> {
        let mut seed = Seed(held());
        draw(rng, &mut seed.0, Fault::KeyGenRng)?;
        Ok(seed)
    }

    /// The seed of these bytes, which are secret and random. Takes no stack of its own.
    ///
    /// ```
    /// # #[cfg(feature = "ml-dsa-65-bare")] {
    /// use fips204::ml_dsa_65::Seed;
    ///
    /// let seed = Seed::from_bytes(&[7; 32]); // a seed is secret, and random
    /// assert_eq!(seed.as_bytes(), &[7; 32]);
    /// # }
    /// ```
    #[must_use]
    pub fn from_bytes(bytes: &[u8; 32]) -> Self {
        let mut seed = Seed(held());
        seed.0.array_mut().copy_from_slice(bytes);
        seed
    }

    /// The bytes of the seed, in the place where it keeps them. If it was wiped they are zeros, which you must not read as a seed.
    ///
    /// ```
    /// # #[cfg(feature = "ml-dsa-65-bare")] {
    /// use fips204::ml_dsa_65::Seed;
    ///
    /// let seed = Seed::from_bytes(&[7; 32]); // a seed is secret, and random
    /// assert_eq!(seed.as_bytes(), &[7; 32]);
    /// # }
    /// ```
    #[must_use]
    pub fn as_bytes(&self) -> &[u8; 32] {
        self.0.array()
    }

    /// Makes the key pair of the seed (Algorithm 6), as `keygen_from_seed` does. Takes `stack::KEYGEN` bytes of stack.
    ///
    /// # Errors
    /// The seed was wiped; or rejection sampling reached its limit, for which no seed is known.
    ///
    /// ```
    /// # #[cfg(feature = "ml-dsa-65-bare")] {
    /// use fips204::ml_dsa_65::{KG, Seed};
    /// use fips204::traits::KeyGen;
    ///
    /// let (public, private) = Seed::from_bytes(&[7; 32]).keygen()?; // a seed is secret, and random
    /// assert_eq!(public, KG::keygen_from_seed(&[7; 32]).0);
    /// # let _ = private;
    /// # }
    /// # Ok::<(), fips204::Error>(())
    /// ```
    pub fn keygen(&self) -> Result<(PublicKey<PK, SK, SIG>, PrivateKey<PK, SK, SIG>), Error> {
        let seed = self.0.given().try_into().map_err(|_| WIPED)?;
        Ok(keygen(seed)?)
    }
}
