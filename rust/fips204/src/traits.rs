//! The traits of keys and of key generation.
//!
//! A call with a key that `zeroize` wiped fails with `the key or the hasher was wiped`, and verifies nothing. What a call takes of
//! the stack is in the module `stack` of each set, as `ml_dsa_65::stack`; with a prepared key `SIGN` and `VERIFY` are `SIGN_PREPARED`
//! and `VERIFY_PREPARED`. Keys are `Send` and `Sync`: any number of threads may use one at the same time.

#[cfg(feature = "default-rng")]
use crate::rng::system;
#[cfg(feature = "rand_core")]
use crate::{
    CryptoRng, RngCore,
    proved::fips204::ml_dsa::check_input,
    proved::fips204_shake::bytes::{Fault, Input},
    rng::{draw, fixed},
    wiped::Wiped,
};

/// Declares a method that has a body if generators are known, so with the feature `rand_core` alone.
macro_rules! of_a_generator {
    ($(#[$attribute:meta])* fn $name:ident $arguments:tt -> $result:ty $body:block) => {
        $(#[$attribute])*
        #[cfg(feature = "rand_core")]
        fn $name $arguments -> $result $body

        $(#[$attribute])*
        #[cfg(not(feature = "rand_core"))]
        fn $name $arguments -> $result;
    };
}

/// Key generation (FIPS 204, Algorithm 1).
pub trait KeyGen {
    /// The public key of a pair.
    type PublicKey;

    /// The private key of a pair.
    type PrivateKey;

    /// Makes a key pair from 32 bytes of the operating system's generator. Takes `stack::KEYGEN` bytes of stack.
    ///
    /// # Errors
    /// The generator failed.
    ///
    /// # Panics
    /// Rejection sampling reached its limit, for which no seed is known.
    ///
    /// ```
    /// # #[cfg(all(feature = "ml-dsa-65-bare", feature = "default-rng"))] {
    /// use fips204::{ml_dsa_65, traits::KeyGen}; // or ml_dsa_44, ml_dsa_87
    ///
    /// let (public, private) = ml_dsa_65::KG::try_keygen()?;
    /// # let _ = (public, private);
    /// # }
    /// # Ok::<(), &'static str>(())
    /// ```
    #[cfg(feature = "default-rng")]
    fn try_keygen() -> Result<(Self::PublicKey, Self::PrivateKey), &'static str> {
        Self::try_keygen_with_rng(&mut system())
    }

    /// Makes a key pair from 32 bytes of a generator, which is asked once. Takes `stack::KEYGEN` bytes of stack.
    ///
    /// # Errors
    /// The generator failed.
    ///
    /// # Panics
    /// Rejection sampling reached its limit, for which no seed is known.
    ///
    /// ```
    /// # #[cfg(feature = "ml-dsa-65-bare")] {
    /// # use fips204::{CryptoRng, RngCore};
    /// use fips204::{ml_dsa_65, traits::KeyGen};
    ///
    /// # fn example(your_generator: &mut (impl RngCore + CryptoRng)) -> Result<(), &'static str> {
    /// let (public, private) = ml_dsa_65::KG::try_keygen_with_rng(your_generator)?;
    /// # let _ = (public, private);
    /// # Ok(())
    /// # }
    /// # }
    /// # Ok::<(), &'static str>(())
    /// ```
    #[cfg(feature = "rand_core")]
    fn try_keygen_with_rng(
        rng: &mut (impl RngCore + CryptoRng),
    ) -> Result<(Self::PublicKey, Self::PrivateKey), &'static str> {
        let mut xi = Wiped::zeros();
        draw(rng, &mut xi, Fault::KeyGenRng)?;
        Ok(Self::keygen_from_seed(xi.array()))
    }

    /// Makes the key pair of a seed (Algorithm 6). Whoever has the seed has the private key. Takes `stack::KEYGEN` bytes of stack.
    ///
    /// # Panics
    /// Rejection sampling reached its limit, for which no seed is known.
    ///
    /// ```
    /// # #[cfg(feature = "ml-dsa-65-bare")] {
    /// use fips204::ml_dsa_65::KG;
    /// use fips204::traits::{KeyGen, SerDes};
    ///
    /// let seed = [7; 32]; // a seed is secret, and random
    /// let (public, private) = KG::keygen_from_seed(&seed);
    /// let (again, _) = KG::keygen_from_seed(&seed);
    /// assert_eq!(public.into_bytes(), again.into_bytes());
    /// # let _ = private;
    /// # }
    /// # Ok::<(), &'static str>(())
    /// ```
    #[must_use]
    fn keygen_from_seed(xi: &[u8; 32]) -> (Self::PublicKey, Self::PrivateKey);
}

/// Signing (FIPS 204, Algorithms 2 and 4).
///
/// An implementation has the calls with a seed, or with the feature `rand_core` those with a generator instead: each is made of the
/// other one where it is left out, so that one of them has to be there.
pub trait Signer {
    /// A signature.
    type Signature;

    /// The public key that belongs to the private one.
    type PublicKey;

    /// Signs a message under a context, with random bytes of the operating system's generator. Takes `stack::SIGN` bytes of stack.
    ///
    /// # Errors
    /// As `try_sign_with_rng`.
    ///
    /// ```
    /// # #[cfg(all(feature = "ml-dsa-65-bare", feature = "default-rng"))] {
    /// use fips204::ml_dsa_65;
    /// use fips204::traits::{Signer, Verifier};
    ///
    /// let (public, private) = ml_dsa_65::try_keygen()?;
    /// let signature = private.try_sign(b"a message", b"a context")?;
    /// assert!(public.verify(b"a message", &signature, b"a context"));
    /// # }
    /// # Ok::<(), &'static str>(())
    /// ```
    #[cfg(feature = "default-rng")]
    fn try_sign(&self, message: &[u8], ctx: &[u8]) -> Result<Self::Signature, &'static str> {
        self.try_sign_with_rng(&mut system(), message, ctx)
    }

    /// Signs a message under a context, with 32 bytes of a generator, which is asked once. Takes `stack::SIGN` bytes of stack.
    ///
    /// # Errors
    /// In this order: the context has more than 255 bytes (the generator is then not asked); the generator failed; all 814
    /// attempts were rejected, as with a damaged key, or rejection sampling reached its limit, for which no key is known.
    ///
    /// ```
    /// # #[cfg(feature = "ml-dsa-65-bare")] {
    /// # use fips204::{CryptoRng, RngCore};
    /// use fips204::{ml_dsa_65, traits::Signer};
    ///
    /// # fn example(private: &ml_dsa_65::PrivateKey, your_generator: &mut (impl RngCore + CryptoRng)) -> Result<(), &'static str> {
    /// let signature = private.try_sign_with_rng(your_generator, b"a message", b"a context")?;
    /// # let _ = signature;
    /// # Ok(())
    /// # }
    /// # }
    /// # Ok::<(), &'static str>(())
    /// ```
    #[cfg(feature = "rand_core")]
    fn try_sign_with_rng(
        &self,
        rng: &mut (impl RngCore + CryptoRng),
        message: &[u8],
        ctx: &[u8],
    ) -> Result<Self::Signature, &'static str> {
        check_input(&Input::Message(message, ctx)).map_err(|fault| fault.as_str())?;
        let mut random = Wiped::zeros();
        draw(rng, &mut random, Fault::SignRng)?;
        self.try_sign_with_seed(random.array(), message, ctx)
    }

    of_a_generator! {
        /// Signs a message under a context, with these random bytes. 32 zeros give the deterministic variant. Takes `stack::SIGN` bytes
        /// of stack.
        ///
        /// # Errors
        /// Those of `try_sign_with_rng`, without a generator's.
        ///
        /// ```
        /// # #[cfg(feature = "ml-dsa-65-bare")] {
        /// use fips204::ml_dsa_65::KG;
        /// use fips204::traits::{KeyGen, Signer};
        ///
        /// let (public, private) = KG::keygen_from_seed(&[7; 32]); // a seed is secret, and random
        /// let signature = private.try_sign_with_seed(&[0; 32], b"a message", b"a context")?;
        /// assert_eq!(signature, private.try_sign_with_seed(&[0; 32], b"a message", b"a context")?);
        ///
        /// let refused = private.try_sign_with_seed(&[0; 32], b"a message", &[0; 256]);
        /// assert_eq!(refused, Err("ML-DSA.Sign: ctx too long"));
        /// # let _ = public;
        /// # }
        /// # Ok::<(), &'static str>(())
        /// ```
        fn try_sign_with_seed(
            &self,
            seed: &[u8; 32],
            message: &[u8],
            ctx: &[u8],
        ) -> Result<Self::Signature, &'static str> {
            self.try_sign_with_rng(&mut fixed(seed), message, ctx)
        }
    }

    /// Signs a digest under a context, with random bytes of the operating system's generator. Takes `stack::SIGN` bytes of stack.
    ///
    /// # Errors
    /// As `try_hash_sign_with_rng`.
    ///
    /// ```
    /// # #[cfg(all(feature = "ml-dsa-65-bare", feature = "default-rng"))] {
    /// use fips204::traits::{Signer, Verifier};
    /// use fips204::{ml_dsa_65, pre_hash};
    ///
    /// let digest = [5; 64]; // stands for the SHA-512 of a message
    /// let (public, private) = ml_dsa_65::try_keygen()?;
    /// let signature = private.try_hash_sign(&digest, b"a context", &pre_hash::SHA2_512)?;
    /// assert!(public.hash_verify(&digest, &signature, b"a context", &pre_hash::SHA2_512));
    /// # }
    /// # Ok::<(), &'static str>(())
    /// ```
    #[cfg(feature = "default-rng")]
    fn try_hash_sign(
        &self,
        hash: &[u8],
        ctx: &[u8],
        hash_oid: &[u8],
    ) -> Result<Self::Signature, &'static str> {
        self.try_hash_sign_with_rng(&mut system(), hash, ctx, hash_oid)
    }

    /// Signs a digest under a context, with 32 bytes of a generator, which is asked once. `hash_oid` is the object identifier,
    /// in DER, of the function that made the digest: one of [`pre_hash`](crate::pre_hash), whose digests have one length, or
    /// another one, with a digest of at most 1024 bytes. Takes `stack::SIGN` bytes of stack.
    ///
    /// # Errors
    /// In this order: the context has more than 255 bytes, the identifier is empty or not in DER, the digest has more than
    /// 1024 bytes or another length than the function's (in these cases the generator is not asked); the generator failed; all
    /// 814 attempts were rejected, or rejection sampling reached its limit, for which no key is known.
    ///
    /// ```
    /// # #[cfg(feature = "ml-dsa-65-bare")] {
    /// # use fips204::{CryptoRng, RngCore};
    /// use fips204::{ml_dsa_65, pre_hash, traits::Signer};
    ///
    /// # fn example(private: &ml_dsa_65::PrivateKey, your_generator: &mut (impl RngCore + CryptoRng)) -> Result<(), &'static str> {
    /// let digest = [5; 64]; // stands for the SHA-512 of a message
    /// let signature = private.try_hash_sign_with_rng(your_generator, &digest, b"", &pre_hash::SHA2_512)?;
    /// # let _ = signature;
    /// # Ok(())
    /// # }
    /// # }
    /// # Ok::<(), &'static str>(())
    /// ```
    #[cfg(feature = "rand_core")]
    fn try_hash_sign_with_rng(
        &self,
        rng: &mut (impl RngCore + CryptoRng),
        hash: &[u8],
        ctx: &[u8],
        hash_oid: &[u8],
    ) -> Result<Self::Signature, &'static str> {
        check_input(&Input::Digest(hash, ctx, hash_oid)).map_err(|fault| fault.as_str())?;
        let mut random = Wiped::zeros();
        draw(rng, &mut random, Fault::HashRng)?;
        self.try_hash_sign_with_seed(random.array(), hash, ctx, hash_oid)
    }

    of_a_generator! {
        /// Signs a digest under a context, with these random bytes. Takes `stack::SIGN` bytes of stack.
        ///
        /// # Errors
        /// Those of `try_hash_sign_with_rng`, without a generator's.
        ///
        /// ```
        /// # #[cfg(feature = "ml-dsa-65-bare")] {
        /// use fips204::traits::{KeyGen, Signer};
        /// use fips204::{ml_dsa_65::KG, pre_hash};
        ///
        /// let digest = [5; 64]; // stands for the SHA-512 of a message
        /// let (public, private) = KG::keygen_from_seed(&[7; 32]); // a seed is secret, and random
        /// let signature = private.try_hash_sign_with_seed(&[0; 32], &digest, b"", &pre_hash::SHA2_512)?;
        ///
        /// let refused = private.try_hash_sign_with_seed(&[0; 32], b"a message", b"", &pre_hash::SHA2_512);
        /// assert_eq!(refused, Err("HashML-DSA.Sign: digest length does not match the OID"));
        /// # let _ = (public, signature);
        /// # }
        /// # Ok::<(), &'static str>(())
        /// ```
        fn try_hash_sign_with_seed(
            &self,
            seed: &[u8; 32],
            hash: &[u8],
            ctx: &[u8],
            hash_oid: &[u8],
        ) -> Result<Self::Signature, &'static str> {
            self.try_hash_sign_with_rng(&mut fixed(seed), hash, ctx, hash_oid)
        }
    }

    /// The public key that belongs to the private one. Takes `stack::PUBLIC_KEY` bytes of stack.
    ///
    /// # Panics
    /// The key was wiped (`get_public_key: the key or the hasher was wiped`); or rejection sampling reached its limit, for which no
    /// key is known.
    ///
    /// ```
    /// # #[cfg(feature = "ml-dsa-65-bare")] {
    /// use fips204::ml_dsa_65::KG;
    /// use fips204::traits::{KeyGen, SerDes, Signer};
    ///
    /// let (public, private) = KG::keygen_from_seed(&[7; 32]); // a seed is secret, and random
    /// assert_eq!(private.get_public_key().into_bytes(), public.into_bytes());
    /// # }
    /// # Ok::<(), &'static str>(())
    /// ```
    #[must_use]
    fn get_public_key(&self) -> Self::PublicKey;
}

/// Verifying (FIPS 204, Algorithms 3 and 5).
pub trait Verifier {
    /// A signature.
    type Signature;

    /// Whether the key accepts the signature of a message under a context. False for a context of more than 255 bytes. Takes
    /// `stack::VERIFY` bytes of stack.
    ///
    /// ```
    /// # #[cfg(feature = "ml-dsa-65-bare")] {
    /// use fips204::ml_dsa_65::KG;
    /// use fips204::traits::{KeyGen, Signer, Verifier};
    ///
    /// let (public, private) = KG::keygen_from_seed(&[7; 32]); // a seed is secret, and random
    /// let signature = private.try_sign_with_seed(&[0; 32], b"a message", b"a context")?;
    /// assert!(public.verify(b"a message", &signature, b"a context"));
    /// assert!(!public.verify(b"another message", &signature, b"a context"));
    /// # }
    /// # Ok::<(), &'static str>(())
    /// ```
    #[must_use]
    fn verify(&self, message: &[u8], signature: &Self::Signature, ctx: &[u8]) -> bool;

    /// Whether the key accepts the signature of a digest under a context. False if signing would reject context, identifier
    /// or digest. Takes `stack::VERIFY` bytes of stack.
    ///
    /// ```
    /// # #[cfg(feature = "ml-dsa-65-bare")] {
    /// use fips204::traits::{KeyGen, Signer, Verifier};
    /// use fips204::{ml_dsa_65::KG, pre_hash};
    ///
    /// let digest = [5; 64]; // stands for the SHA-512 of a message
    /// let (public, private) = KG::keygen_from_seed(&[7; 32]); // a seed is secret, and random
    /// let signature = private.try_hash_sign_with_seed(&[0; 32], &digest, b"", &pre_hash::SHA2_512)?;
    /// assert!(public.hash_verify(&digest, &signature, b"", &pre_hash::SHA2_512));
    /// assert!(!public.hash_verify(&digest, &signature, b"", &pre_hash::SHA3_512));
    /// # }
    /// # Ok::<(), &'static str>(())
    /// ```
    #[must_use]
    fn hash_verify(
        &self,
        hash: &[u8],
        signature: &Self::Signature,
        ctx: &[u8],
        hash_oid: &[u8],
    ) -> bool;
}

/// Keys as byte arrays (FIPS 204, Algorithms 22 to 25).
pub trait SerDes {
    /// The array of a key.
    type ByteArray;

    /// The bytes of the key. Takes no stack but the array's.
    ///
    /// ```
    /// # #[cfg(feature = "ml-dsa-65-bare")] {
    /// use fips204::ml_dsa_65::{KG, PK_LEN};
    /// use fips204::traits::{KeyGen, SerDes};
    ///
    /// let (public, _) = KG::keygen_from_seed(&[7; 32]); // a seed is secret, and random
    /// let stored: [u8; PK_LEN] = public.into_bytes();
    /// # let _ = stored;
    /// # }
    /// # Ok::<(), &'static str>(())
    /// ```
    fn into_bytes(self) -> Self::ByteArray;

    /// The key that has these bytes. Takes `stack::CHECK` bytes of stack for a private key.
    ///
    /// # Errors
    /// No private key has them. (Every array of the right length is a public key.)
    ///
    /// ```
    /// # #[cfg(feature = "ml-dsa-65-bare")] {
    /// use fips204::ml_dsa_65::{PrivateKey, PublicKey, PK_LEN, SK_LEN};
    /// use fips204::traits::SerDes;
    ///
    /// assert!(PublicKey::try_from_bytes([0xFF; PK_LEN]).is_ok());
    /// assert_eq!(
    ///     PrivateKey::try_from_bytes([0xFF; SK_LEN]).err(),
    ///     Some("the private key is damaged: s1 or s2 is out of range")
    /// );
    /// # }
    /// # Ok::<(), &'static str>(())
    /// ```
    fn try_from_bytes(ba: Self::ByteArray) -> Result<Self, &'static str>
    where
        Self: Sized;
}
