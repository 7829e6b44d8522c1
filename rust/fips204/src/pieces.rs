//! Messages that come in pieces.

use crate::Error;
use crate::error::{WIPED, ended, why};
use crate::proved::fips204_shake::bytes::{Refusal, SetName};
use crate::proved::fips204_shake::pieces::{self, SAVED_LEN};
use crate::wiped::{Wiped, shows_nothing};

/// Hashes a message in pieces to `mu`, which `try_sign_mu` signs and `verify_mu` verifies as `try_sign` and `verify` do the
/// whole message. It is begun by `message_hasher` of a key. With the feature `default-rng` it is an `io::Write`.
///
/// ```
/// # #[cfg(all(feature = "ml-dsa-65-bare", feature = "default-rng"))] {
/// use fips204::ml_dsa_65;
/// use fips204::traits::Signer;
///
/// let (public, private) = ml_dsa_65::try_keygen()?;
/// let signature = private.try_sign(b"a long message", b"a context")?;
///
/// let mut hasher = public.message_hasher(b"a context")?;
/// hasher.update(b"a long ");
/// hasher.update(b"message");
/// assert!(public.verify_mu(&hasher.finalize(), &signature));
/// # }
/// # Ok::<(), &'static str>(())
/// ```
#[derive(Clone)]
pub struct MessageHasher(Wiped<SAVED_LEN>);

#[allow(dead_code)] // no set may be chosen
impl MessageHasher {
    /// A hasher that the library began, which is kept as its bytes.
    fn begun(hasher: Result<pieces::MessageHasher, Refusal>) -> Result<Self, Error> {
        let mut state = Wiped::zeros();
        hasher.map_err(why)?.save(state.array_mut());
        Ok(Self(state))
    }

    /// Begins a message that the public key with these bytes is to verify.
    pub(crate) fn of_public_key(set: SetName, key: &[u8], ctx: &[u8]) -> Result<Self, Error> {
        Self::begun(pieces::MessageHasher::for_public_key(set, key, ctx))
    }

    /// Begins a message that the private key with these bytes is to sign.
    pub(crate) fn of_private_key(set: SetName, key: &[u8], ctx: &[u8]) -> Result<Self, Error> {
        Self::begun(pieces::MessageHasher::for_private_key(set, key, ctx))
    }

    /// The library's hasher.
    fn hasher(&self) -> Result<pieces::MessageHasher, &'static str> {
        if self.0.given().is_empty() {
            return Err(WIPED);
        }
        // The library wrote the state, so that it is one.
        Ok(pieces::MessageHasher::restore(self.0.array()).unwrap())
    }

    fn add(&mut self, piece: &[u8]) -> Result<(), &'static str> {
        let mut hasher = self.hasher()?;
        hasher.update(piece);
        hasher.save(self.0.array_mut());
        Ok(())
    }

    /// Adds a piece to the end of the message. Takes [`STACK_MU`](crate::STACK_MU) bytes of stack.
    ///
    /// # Panics
    /// The hasher was wiped by `zeroize`.
    ///
    /// ```
    /// # #[cfg(feature = "ml-dsa-65-bare")] {
    /// # use fips204::{ml_dsa_65::KG, traits::KeyGen};
    /// # let (public, _) = KG::keygen_from_seed(&[7; 32]);
    /// let mut cut = public.message_hasher(b"a context")?;
    /// cut.update(b"a long ");
    /// cut.update(b"message");
    ///
    /// let mut whole = public.message_hasher(b"a context")?;
    /// whole.update(b"a long message");
    /// assert_eq!(cut.finalize(), whole.finalize());
    /// # }
    /// # Ok::<(), &'static str>(())
    /// ```
    pub fn update(&mut self, piece: &[u8]) {
        ended("update", self.add(piece));
    }

    /// The hash `mu` of the message. Takes [`STACK_MU`](crate::STACK_MU) bytes of stack.
    ///
    /// # Panics
    /// The hasher was wiped by `zeroize`.
    ///
    /// ```
    /// # #[cfg(feature = "ml-dsa-65-bare")] {
    /// # use fips204::{ml_dsa_65::KG, traits::KeyGen};
    /// # let (public, _) = KG::keygen_from_seed(&[7; 32]);
    /// let mut hasher = public.message_hasher(b"a context")?;
    /// let of_nothing = hasher.clone().finalize();
    /// hasher.update(b"a message");
    /// let mu: [u8; 64] = hasher.finalize();
    /// assert_ne!(mu, of_nothing);
    /// # }
    /// # Ok::<(), &'static str>(())
    /// ```
    #[must_use]
    pub fn finalize(self) -> [u8; 64] {
        ended("finalize", self.hasher()).finalize()
    }
}

shows_nothing!(MessageHasher);

#[cfg(feature = "default-rng")]
impl std::io::Write for MessageHasher {
    fn write(&mut self, piece: &[u8]) -> std::io::Result<usize> {
        let added = self.add(piece).map_err(std::io::Error::other);
        added.map(|()| piece.len())
    }

    fn flush(&mut self) -> std::io::Result<()> {
        Ok(())
    }
}
