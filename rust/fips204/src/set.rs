//! What every parameter set has: its keys, which are generic over the set, and the items of its module.
#![allow(dead_code)] // no set may be chosen

use crate::Error;
use crate::error::{WRONG_LENGTH, ended, why};
use crate::pieces::MessageHasher;
use crate::proved::fips204_shake::AnySet;
use crate::proved::fips204_shake::bytes::{Input, Refusal, SetName};
use crate::traits::{SerDes, Signer, Verifier};
use crate::wiped::{Held, Wiped, held, shows_nothing, wipe};
#[cfg(feature = "rand_core")]
use crate::{CryptoRng, RngCore, proved::fips204_shake::bytes::Fault, rng::draw};

/// A parameter set, by the lengths of a public key, a private key and a signature.
#[derive(Debug)]
pub struct Set<const PK: usize, const SK: usize, const SIG: usize>;

/// A set that has a name, by which the proved calls know it.
pub trait Named {
    /// The name.
    const NAME: SetName;
}

/// A private key, which is wiped when it is dropped. With the feature `alloc` it is a pointer to its bytes, so that a move leaves no
/// copy of them.
#[derive(Clone)]
pub struct PrivateKey<const PK: usize, const SK: usize, const SIG: usize>(pub(crate) Held<SK>);

/// A public key, which is wiped when it is dropped. Two are equal if they have the same bytes.
#[derive(Clone)]
pub struct PublicKey<const PK: usize, const SK: usize, const SIG: usize>(pub(crate) Wiped<PK>);

/// A pair of keys of a set.
type Pair<const PK: usize, const SK: usize, const SIG: usize> =
    (PublicKey<PK, SK, SIG>, PrivateKey<PK, SK, SIG>);

shows_nothing!(PrivateKey<PK, SK, SIG>);
shows_nothing!(PublicKey<PK, SK, SIG>);

/// The key pair of a seed.
pub(crate) fn keygen<const PK: usize, const SK: usize, const SIG: usize>(
    xi: &[u8; 32],
) -> Result<Pair<PK, SK, SIG>, &'static str>
where
    Set<PK, SK, SIG>: Named,
{
    let mut public = PublicKey(Wiped::zeros());
    let mut private = PrivateKey(held());
    let set = Set::<PK, SK, SIG>::NAME;
    let made = AnySet::keygen(set, xi, public.0.array_mut(), private.0.array_mut());
    made.map(|()| (public, private)).map_err(why)
}

/// The public key of a private one, which is given by its bytes.
pub(crate) fn public_key<const PK: usize, const SK: usize, const SIG: usize>(
    set: SetName,
    private: &[u8],
) -> PublicKey<PK, SK, SIG> {
    let mut public = PublicKey(Wiped::zeros());
    let made = AnySet::public_key(set, private, public.0.array_mut());
    ended("get_public_key", made.map_err(why));
    public
}

/// The signature that a call writes.
pub(crate) fn signed<const SIG: usize>(
    write: impl FnOnce(&mut [u8]) -> Result<(), Refusal>,
) -> Result<[u8; SIG], &'static str> {
    let mut signature = [0; SIG];
    write(&mut signature).map(|()| signature).map_err(why)
}

impl<const PK: usize, const SK: usize, const SIG: usize> PrivateKey<PK, SK, SIG>
where
    Set<PK, SK, SIG>: Named,
{
    pub(crate) const SET: SetName = Set::<PK, SK, SIG>::NAME;

    fn sign(&self, random: &[u8; 32], input: &Input<'_>) -> Result<[u8; SIG], &'static str> {
        signed(|signature| AnySet::sign(Self::SET, self.0.given(), random, input, signature))
    }

    /// The key of these bytes, which are copied once, to the place where it keeps them.
    fn checked(bytes: &[u8; SK]) -> Result<Self, &'static str> {
        let mut key = PrivateKey(held());
        key.0.array_mut().copy_from_slice(bytes);
        let done = AnySet::check_private_key(Self::SET, key.0.given());
        done.map(|()| key).map_err(why)
    }

    /// The bytes of the key, in the place where it keeps them. If the key was wiped they are zeros, which you must not read as a key.
    ///
    /// ```
    /// # #[cfg(feature = "ml-dsa-65-bare")] {
    /// use fips204::ml_dsa_65::{KG, PrivateKey};
    /// use fips204::traits::KeyGen;
    ///
    /// let (_, private) = KG::keygen_from_seed(&[7; 32]); // a seed is secret, and random
    /// let same = PrivateKey::try_from(&private.as_bytes()[..])?;
    /// assert_eq!(same.as_bytes(), private.as_bytes());
    /// # }
    /// # Ok::<(), fips204::Error>(())
    /// ```
    #[must_use]
    pub fn as_bytes(&self) -> &[u8; SK] {
        self.0.array()
    }

    /// Whether the key's part t0 belongs to its parts s1 and s2, as in every key of key generation. Takes `stack::WHOLE` bytes of
    /// stack.
    ///
    /// # Errors
    /// The key was wiped; or rejection sampling reached its limit, for which no key is known.
    ///
    /// ```
    /// # #[cfg(feature = "ml-dsa-65-bare")] {
    /// use fips204::ml_dsa_65::{KG, PrivateKey, SK_LEN};
    /// use fips204::traits::{KeyGen, SerDes};
    ///
    /// let (_, private) = KG::keygen_from_seed(&[7; 32]); // a seed is secret, and random
    /// assert_eq!(private.is_whole(), Ok(true));
    ///
    /// let mut bytes = private.into_bytes();
    /// bytes[SK_LEN - 1] ^= 1;
    /// assert_eq!(PrivateKey::try_from_bytes(bytes)?.is_whole(), Ok(false));
    /// # }
    /// # Ok::<(), &'static str>(())
    /// ```
    pub fn is_whole(&self) -> Result<bool, Error> {
        Ok(AnySet::is_whole(Self::SET, self.0.given()).map_err(why)?)
    }

    /// Whether the key works: whether what it signs verifies under the public key that `get_public_key` returns,
    /// also after that was stored. So it is for every key of key generation. Takes `stack::PAIR` bytes of stack.
    ///
    /// # Errors
    /// The key was wiped; or rejection sampling reached its limit, for which no key is known.
    ///
    /// ```
    /// # #[cfg(feature = "ml-dsa-65-bare")] {
    /// use fips204::ml_dsa_65::{KG, PrivateKey};
    /// use fips204::traits::{KeyGen, SerDes};
    ///
    /// let (_, private) = KG::keygen_from_seed(&[7; 32]); // a seed is secret, and random
    ///
    /// let mut bytes = private.into_bytes();
    /// bytes[64] ^= 1; // of the hash of the public key
    /// assert_eq!(PrivateKey::try_from_bytes(bytes)?.is_pair(), Ok(false));
    /// # }
    /// # Ok::<(), &'static str>(())
    /// ```
    pub fn is_pair(&self) -> Result<bool, Error> {
        Ok(AnySet::is_pair(Self::SET, self.0.given()).map_err(why)?)
    }

    /// Begins a message in pieces, which `try_sign_mu_with_rng` then signs. Takes [`STACK_MU`](crate::STACK_MU) bytes of stack.
    ///
    /// # Errors
    /// The context has more than 255 bytes, or the key was wiped.
    ///
    /// ```
    /// # #[cfg(feature = "ml-dsa-65-bare")] {
    /// use fips204::ml_dsa_65::KG;
    /// use fips204::traits::{KeyGen, Signer};
    ///
    /// let (public, private) = KG::keygen_from_seed(&[7; 32]); // a seed is secret, and random
    /// let mut hasher = private.message_hasher(b"a context")?;
    /// hasher.update(b"a long ");
    /// hasher.update(b"message");
    /// let signature = private.try_sign_mu_with_seed(&[0; 32], &hasher.finalize())?;
    /// assert_eq!(signature, private.try_sign_with_seed(&[0; 32], b"a long message", b"a context")?);
    /// # let _ = public;
    /// # }
    /// # Ok::<(), &'static str>(())
    /// ```
    pub fn message_hasher(&self, ctx: &[u8]) -> Result<MessageHasher, Error> {
        MessageHasher::of_private_key(Self::SET, self.0.given(), ctx)
    }

    /// Signs the hash `mu` of a message, with random bytes of the operating system's generator. Takes `stack::SIGN` bytes of
    /// stack.
    ///
    /// # Errors
    /// The generator failed; the key was wiped; all 814 attempts were rejected, as with a damaged key; or rejection sampling
    /// reached its limit, for which no key is known.
    ///
    /// ```
    /// # #[cfg(all(feature = "ml-dsa-65-bare", feature = "default-rng"))] {
    /// use fips204::ml_dsa_65::try_keygen;
    ///
    /// let (public, private) = try_keygen()?;
    /// let mut hasher = private.message_hasher(b"a context")?;
    /// hasher.update(b"a message");
    /// let mu = hasher.finalize();
    /// let signature = private.try_sign_mu(&mu)?;
    /// assert!(public.verify_mu(&mu, &signature));
    /// # }
    /// # Ok::<(), &'static str>(())
    /// ```
    #[cfg(feature = "default-rng")]
    pub fn try_sign_mu(&self, mu: &[u8; 64]) -> Result<[u8; SIG], Error> {
        self.try_sign_mu_with_rng(&mut crate::rng::system(), mu)
    }

    /// Signs the hash `mu` of a message, with 32 bytes of a generator, which is asked once. Takes `stack::SIGN` bytes of stack.
    ///
    /// # Errors
    /// The generator failed; the key was wiped; all 814 attempts were rejected, as with a damaged key; or rejection sampling
    /// reached its limit, for which no key is known.
    ///
    /// ```
    /// # #[cfg(feature = "ml-dsa-65-bare")] {
    /// # use fips204::{CryptoRng, RngCore};
    /// use fips204::ml_dsa_65::PrivateKey;
    ///
    /// # fn example(private: &PrivateKey, your_generator: &mut (impl RngCore + CryptoRng)) -> Result<(), &'static str> {
    /// let mu = private.message_hasher(b"a context")?.finalize(); // of the empty message
    /// let signature = private.try_sign_mu_with_rng(your_generator, &mu)?;
    /// # let _ = signature;
    /// # Ok(())
    /// # }
    /// # }
    /// ```
    #[cfg(feature = "rand_core")]
    pub fn try_sign_mu_with_rng(
        &self,
        rng: &mut (impl RngCore + CryptoRng),
        mu: &[u8; 64],
    ) -> Result<[u8; SIG], Error> {
        let mut random = Wiped::zeros();
        draw(rng, &mut random, Fault::InternalRng)?;
        self.try_sign_mu_with_seed(random.array(), mu)
    }

    /// Signs the hash `mu` of a message, with these random bytes. 32 zeros give the deterministic variant. Takes `stack::SIGN`
    /// bytes of stack.
    ///
    /// # Errors
    /// The key was wiped; all 814 attempts were rejected, as with a damaged key; or rejection sampling reached its limit, for
    /// which no key is known.
    ///
    /// ```
    /// # #[cfg(feature = "ml-dsa-65-bare")] {
    /// use fips204::ml_dsa_65::KG;
    /// use fips204::traits::{KeyGen, Signer};
    ///
    /// let (public, private) = KG::keygen_from_seed(&[7; 32]); // a seed is secret, and random
    /// let mu = public.message_hasher(b"a context")?.finalize(); // of the empty message
    /// let signature = private.try_sign_mu_with_seed(&[0; 32], &mu)?;
    /// assert_eq!(signature, private.try_sign_with_seed(&[0; 32], b"", b"a context")?);
    /// # }
    /// # Ok::<(), &'static str>(())
    /// ```
    pub fn try_sign_mu_with_seed(
        &self,
        seed: &[u8; 32],
        mu: &[u8; 64],
    ) -> Result<[u8; SIG], Error> {
        Ok(self.sign(seed, &Input::Mu(mu))?)
    }

    /// Signs the hash `mu` of a framed message (Algorithm 7 from line 7 on): with random bytes of the generator, or
    /// without `hedged` with 32 zeros. Takes `stack::SIGN` bytes of stack.
    ///
    /// # Errors
    /// Those of `try_sign_mu_with_rng`.
    ///
    /// ```
    /// # #[cfg(feature = "ml-dsa-65-bare")] {
    /// use fips204::ml_dsa_65::KG;
    /// use fips204::{FillRng, traits::KeyGen};
    ///
    /// let (public, private) = KG::keygen_from_seed(&[7; 32]); // a seed is secret, and random
    /// let mut unasked = FillRng(|_: &mut [u8]| false);
    /// let signature = private.sign_mu(&mut unasked, &[1; 64], false)?;
    /// assert!(public.verify_mu(&[1; 64], &signature));
    /// # }
    /// # Ok::<(), &'static str>(())
    /// ```
    #[cfg(feature = "acvp-internal")]
    pub fn sign_mu(
        &self,
        rng: &mut (impl RngCore + CryptoRng),
        mu: &[u8; 64],
        hedged: bool,
    ) -> Result<[u8; SIG], &'static str> {
        if hedged {
            Ok(self.try_sign_mu_with_rng(rng, mu)?)
        } else {
            Ok(self.try_sign_mu_with_seed(&[0; 32], mu)?)
        }
    }
}

impl<const PK: usize, const SK: usize, const SIG: usize> PublicKey<PK, SK, SIG> {
    /// The bytes of the key, in the place where it keeps them. If the key was wiped they are zeros, which you must not read as a key.
    ///
    /// ```
    /// # #[cfg(feature = "ml-dsa-65-bare")] {
    /// use fips204::ml_dsa_65::{KG, PublicKey};
    /// use fips204::traits::KeyGen;
    ///
    /// let (public, _) = KG::keygen_from_seed(&[7; 32]); // a seed is secret, and random
    /// assert_eq!(PublicKey::try_from(&public.as_bytes()[..])?, public);
    /// # }
    /// # Ok::<(), fips204::Error>(())
    /// ```
    #[must_use]
    pub fn as_bytes(&self) -> &[u8; PK] {
        self.0.array()
    }

    /// A copy of the bytes of the key, which stays: of a key that was wiped zeros, as of `as_bytes`.
    ///
    /// ```
    /// # #[cfg(feature = "ml-dsa-65-bare")] {
    /// use fips204::ml_dsa_65::KG;
    /// use fips204::traits::{KeyGen, SerDes};
    ///
    /// let (public, _) = KG::keygen_from_seed(&[7; 32]); // a seed is secret, and random
    /// let stored = public.to_bytes();
    /// assert_eq!(stored, public.into_bytes());
    /// # }
    /// ```
    #[must_use]
    pub fn to_bytes(&self) -> [u8; PK] {
        *self.0.array()
    }
}

impl<const PK: usize, const SK: usize, const SIG: usize> PublicKey<PK, SK, SIG>
where
    Set<PK, SK, SIG>: Named,
{
    pub(crate) const SET: SetName = Set::<PK, SK, SIG>::NAME;

    fn accepts(&self, input: &Input<'_>, signature: &[u8; SIG]) -> bool {
        AnySet::verify(Self::SET, self.0.given(), input, signature) == Ok(true)
    }

    /// Begins a message in pieces, which `verify_mu` then verifies. Takes [`STACK_MU`](crate::STACK_MU) bytes of stack.
    ///
    /// # Errors
    /// The context has more than 255 bytes, or the key was wiped.
    ///
    /// ```
    /// # #[cfg(feature = "ml-dsa-65-bare")] {
    /// use fips204::ml_dsa_65::KG;
    /// use fips204::traits::{KeyGen, Signer};
    ///
    /// let (public, private) = KG::keygen_from_seed(&[7; 32]); // a seed is secret, and random
    /// let signature = private.try_sign_with_seed(&[0; 32], b"a long message", b"a context")?;
    /// let mut hasher = public.message_hasher(b"a context")?;
    /// hasher.update(b"a long ");
    /// hasher.update(b"message");
    /// assert!(public.verify_mu(&hasher.finalize(), &signature));
    /// # }
    /// # Ok::<(), &'static str>(())
    /// ```
    pub fn message_hasher(&self, ctx: &[u8]) -> Result<MessageHasher, Error> {
        MessageHasher::of_public_key(Self::SET, self.0.given(), ctx)
    }

    /// Whether the key accepts the signature of the hash `mu` of a message (Algorithm 8, with mu given). False for a key that was
    /// wiped. Takes `stack::VERIFY` bytes of stack.
    ///
    /// ```
    /// # #[cfg(feature = "ml-dsa-65-bare")] {
    /// use fips204::ml_dsa_65::KG;
    /// use fips204::traits::KeyGen;
    ///
    /// let (public, private) = KG::keygen_from_seed(&[7; 32]); // a seed is secret, and random
    /// let mu = public.message_hasher(b"a context")?.finalize(); // of the empty message
    /// let mut signature = private.try_sign_mu_with_seed(&[0; 32], &mu)?;
    /// assert!(public.verify_mu(&mu, &signature));
    /// signature[0] ^= 1;
    /// assert!(!public.verify_mu(&mu, &signature));
    /// # }
    /// # Ok::<(), &'static str>(())
    /// ```
    #[must_use]
    pub fn verify_mu(&self, mu: &[u8; 64], sig: &[u8; SIG]) -> bool {
        self.accepts(&Input::Mu(mu), sig)
    }
}

impl<const PK: usize, const SK: usize, const SIG: usize> Signer for PrivateKey<PK, SK, SIG>
where
    Set<PK, SK, SIG>: Named,
{
    type Signature = [u8; SIG];
    type PublicKey = PublicKey<PK, SK, SIG>;

    fn try_sign_with_seed(
        &self,
        seed: &[u8; 32],
        message: &[u8],
        ctx: &[u8],
    ) -> Result<[u8; SIG], &'static str> {
        self.sign(seed, &Input::Message(message, ctx))
    }

    fn try_hash_sign_with_seed(
        &self,
        seed: &[u8; 32],
        hash: &[u8],
        ctx: &[u8],
        hash_oid: &[u8],
    ) -> Result<[u8; SIG], &'static str> {
        self.sign(seed, &Input::Digest(hash, ctx, hash_oid))
    }

    /// # Panics
    /// The key was wiped; or rejection sampling reached its limit, for which no key is known.
    fn get_public_key(&self) -> PublicKey<PK, SK, SIG> {
        public_key(Self::SET, self.0.given())
    }
}

impl<const PK: usize, const SK: usize, const SIG: usize> Verifier for PublicKey<PK, SK, SIG>
where
    Set<PK, SK, SIG>: Named,
{
    type Signature = [u8; SIG];

    fn verify(&self, message: &[u8], signature: &[u8; SIG], ctx: &[u8]) -> bool {
        self.accepts(&Input::Message(message, ctx), signature)
    }

    fn hash_verify(&self, hash: &[u8], signature: &[u8; SIG], ctx: &[u8], hash_oid: &[u8]) -> bool {
        self.accepts(&Input::Digest(hash, ctx, hash_oid), signature)
    }
}

impl<const PK: usize, const SK: usize, const SIG: usize> SerDes for PrivateKey<PK, SK, SIG>
where
    Set<PK, SK, SIG>: Named,
{
    type ByteArray = [u8; SK];

    /// Of a key that was wiped zeros, as of `as_bytes`.
    fn into_bytes(self) -> [u8; SK] {
        *self.0.array()
    }

    fn try_from_bytes(mut ba: [u8; SK]) -> Result<Self, &'static str> {
        let key = Self::checked(&ba);
        wipe(&mut ba);
        key
    }
}

impl<const PK: usize, const SK: usize, const SIG: usize> SerDes for PublicKey<PK, SK, SIG> {
    type ByteArray = [u8; PK];

    /// Of a key that was wiped zeros, as of `as_bytes`.
    fn into_bytes(self) -> [u8; PK] {
        *self.0.array()
    }

    fn try_from_bytes(ba: [u8; PK]) -> Result<Self, &'static str> {
        let mut key = PublicKey(Wiped::zeros());
        key.0.array_mut().copy_from_slice(&ba);
        Ok(key)
    }
}

/// Fails with an array of another length, and with one that is no private key, as `try_from_bytes` does. The bytes are copied once,
/// to where the key keeps them.
impl<const PK: usize, const SK: usize, const SIG: usize> TryFrom<&[u8]> for PrivateKey<PK, SK, SIG>
where
    Set<PK, SK, SIG>: Named,
{
    type Error = Error;

    fn try_from(bytes: &[u8]) -> Result<Self, Error> {
        let bytes: &[u8; SK] = bytes.try_into().map_err(|_| WRONG_LENGTH)?;
        Ok(Self::checked(bytes)?)
    }
}

/// Fails with an array of another length alone.
impl<const PK: usize, const SK: usize, const SIG: usize> TryFrom<&[u8]> for PublicKey<PK, SK, SIG> {
    type Error = Error;

    fn try_from(bytes: &[u8]) -> Result<Self, Error> {
        let bytes: &[u8; PK] = bytes.try_into().map_err(|_| WRONG_LENGTH)?;
        Ok(PublicKey::try_from_bytes(*bytes)?)
    }
}

/// The bytes of the key, as `as_bytes` gives them.
impl<const PK: usize, const SK: usize, const SIG: usize> AsRef<[u8]> for PublicKey<PK, SK, SIG> {
    fn as_ref(&self) -> &[u8] {
        self.0.array()
    }
}

impl<const PK: usize, const SK: usize, const SIG: usize> PartialEq for PublicKey<PK, SK, SIG> {
    fn eq(&self, other: &Self) -> bool {
        self.0.given() == other.0.given()
    }
}

impl<const PK: usize, const SK: usize, const SIG: usize> Eq for PublicKey<PK, SK, SIG> {}

impl<const PK: usize, const SK: usize, const SIG: usize> core::hash::Hash
    for PublicKey<PK, SK, SIG>
{
    fn hash<H: core::hash::Hasher>(&self, state: &mut H) {
        self.0.given().hash(state);
    }
}

/// The items of a set's module: its name, that of the set, and the lengths of a public key, a private key and a signature.
#[cfg(any(
    feature = "ml-dsa-44-bare",
    feature = "ml-dsa-65-bare",
    feature = "ml-dsa-87-bare"
))]
macro_rules! parameter_set {
    ($name:literal, $set:ident, $pk_len:literal, $sk_len:literal, $sig_len:literal) => {
        use crate::pieces::MessageHasher;
        use crate::set::{self, Named, Set};
        use crate::traits::{KeyGen, Signer, Verifier};
        use crate::wiped::{Held, Wiped, held, shows_nothing};
        use crate::Error;
        use crate::error::{ended, why};
        use crate::proved::fips204_shake::bytes::{Input, SetName};
        use crate::proved::fips204_shake::AnySet;
        #[cfg(feature = "rand_core")]
        use crate::{CryptoRng, RngCore, rng::draw, proved::fips204_shake::bytes::Fault};

        /// The number of bytes of a private key.
        pub const SK_LEN: usize = $sk_len;
        /// The number of bytes of a public key.
        pub const PK_LEN: usize = $pk_len;
        /// The number of bytes of a signature.
        pub const SIG_LEN: usize = $sig_len;

        /// A private key, which is wiped when it is dropped.
        pub type PrivateKey = set::PrivateKey<PK_LEN, SK_LEN, SIG_LEN>;

        /// A public key, which is wiped when it is dropped.
        pub type PublicKey = set::PublicKey<PK_LEN, SK_LEN, SIG_LEN>;

        /// The seed of a pair, which is wiped when it is dropped.
        pub type Seed = crate::Seed<PK_LEN, SK_LEN, SIG_LEN>;

        /// A signature, for the traits of `signature` and `spki`; all other calls take and return its array.
        #[cfg(any(feature = "signature", feature = "signature-3", feature = "pkcs8"))]
        pub type Signature = crate::signatures::Signature<SIG_LEN>;

        impl Named for Set<PK_LEN, SK_LEN, SIG_LEN> {
            const NAME: SetName = SetName::$set;
        }

        /// Key generation.
        #[derive(Debug)]
        pub struct KG();

        /// Makes a key pair from 32 bytes of the operating system's generator. To store the pair, draw a [`Seed`] instead. Takes
        /// [`stack::KEYGEN`] bytes of stack.
        ///
        /// # Errors
        /// The generator failed.
        ///
        /// # Panics
        /// Rejection sampling reached its limit, for which no seed is known.
        ///
        /// ```
        #[doc = concat!("let (public, private) = fips204::", $name, "::try_keygen()?;")]
        /// # let _ = (public, private);
        /// # Ok::<(), &'static str>(())
        /// ```
        #[cfg(feature = "default-rng")]
        pub fn try_keygen() -> Result<(PublicKey, PrivateKey), &'static str> {
            KG::try_keygen()
        }

        /// Makes a key pair from 32 bytes of a generator, which is asked once. To store the pair, draw a [`Seed`] instead. Takes
        /// [`stack::KEYGEN`] bytes of stack.
        ///
        /// # Errors
        /// The generator failed.
        ///
        /// # Panics
        /// Rejection sampling reached its limit, for which no seed is known.
        ///
        /// ```
        /// # fn example(your_generator: &mut (impl fips204::RngCore + fips204::CryptoRng)) -> Result<(), &'static str> {
        #[doc = concat!("let (public, private) = fips204::", $name, "::try_keygen_with_rng(your_generator)?;")]
        /// # let _ = (public, private);
        /// # Ok(())
        /// # }
        /// ```
        #[cfg(feature = "rand_core")]
        pub fn try_keygen_with_rng(
            rng: &mut (impl RngCore + CryptoRng),
        ) -> Result<(PublicKey, PrivateKey), &'static str> {
            KG::try_keygen_with_rng(rng)
        }

        impl KeyGen for KG {
            type PublicKey = PublicKey;
            type PrivateKey = PrivateKey;

            /// # Panics
            /// Rejection sampling reached its limit, for which no seed is known.
            fn keygen_from_seed(xi: &[u8; 32]) -> (PublicKey, PrivateKey) {
                ended("keygen_from_seed", set::keygen(xi))
            }
        }
    };
}

/// The stack that the calls of a set take, as a module of its own.
#[cfg(any(
    feature = "ml-dsa-44-bare",
    feature = "ml-dsa-65-bare",
    feature = "ml-dsa-87-bare"
))]
macro_rules! stack {
    ($($call:ident: $bytes:literal,)*) => {
        /// How many bytes of stack the calls take at most, as `mldsa.h` says for C, if the crate is compiled with optimisation.
        /// Give a thread this, 64 KiB more for the functions around them, and what your own take. Without optimisation, which is
        /// how cargo compiles for `dev`, no call takes more than 768 KiB.
        pub mod stack {
            $(
                #[doc = concat!("The figure that `mldsa.h` calls `_STACK_", stringify!($call), "`, in bytes.")]
                pub const $call: usize = $bytes;
            )*
        }
    };
}

#[cfg(any(
    feature = "ml-dsa-44-bare",
    feature = "ml-dsa-65-bare",
    feature = "ml-dsa-87-bare"
))]
pub(crate) use {parameter_set, stack};
