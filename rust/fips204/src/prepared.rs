//! Keys with their matrix, for many calls.

/// The prepared keys of a parameter set, in the module of `parameter_set`: the module's name, and the lengths of a prepared public
/// and a prepared private key.
#[cfg(any(
    feature = "ml-dsa-44-bare",
    feature = "ml-dsa-65-bare",
    feature = "ml-dsa-87-bare"
))]
macro_rules! prepared_keys {
    ($name:literal, $public_len:literal, $private_len:literal) => {
        /// A public key with its matrix, which verifies in less time, and is wiped when it is dropped. Its calls return what the calls
        /// of the plain key return.
        #[doc = concat!("It has ", stringify!($public_len), " bytes, which are where those of a private key are.")]
        #[derive(Clone)]
        pub struct PreparedPublicKey(Held<{ $public_len }>);

        /// A private key with its matrix, which signs in less time, and is wiped when it is dropped. Its calls return what the calls
        /// of the plain key return.
        #[doc = concat!("It has ", stringify!($private_len), " bytes.")]
        #[derive(Clone)]
        pub struct PreparedPrivateKey(Held<{ $private_len }>);

        shows_nothing!(PreparedPublicKey);
        shows_nothing!(PreparedPrivateKey);

        impl PublicKey {
            /// Samples the matrix once, for many verifications. Takes [`stack::PREPARE_PUBLIC_KEY`] bytes of stack.
            ///
            /// # Panics
            /// The key was wiped; or rejection sampling reached its limit; nobody knows such a key.
            ///
            /// ```
            #[doc = concat!("use fips204::", $name, "::KG;")]
            /// use fips204::traits::{KeyGen, Signer, Verifier};
            ///
            /// let (public, private) = KG::keygen_from_seed(&[7; 32]); // a seed is secret, and random
            /// let prepared = public.prepare();
            /// for message in [b"one", b"two"] {
            ///     let signature = private.try_sign_with_seed(&[0; 32], message, b"")?;
            ///     assert!(prepared.verify(message, &signature, b""));
            /// }
            /// # Ok::<(), &'static str>(())
            /// ```
            #[must_use]
            pub fn prepare(&self) -> PreparedPublicKey {
                let mut prepared = PreparedPublicKey(held());
                let place = prepared.0.array_mut();
                let made = AnySet::prepare_public_key(Self::SET, self.0.given(), place);
                ended("prepare", made.map_err(why));
                prepared
            }
        }

        impl PrivateKey {
            /// Samples the matrix once, for many signatures. Takes [`stack::PREPARE_PRIVATE_KEY`] bytes of stack.
            ///
            /// # Panics
            /// The key was wiped; or rejection sampling reached its limit; nobody knows such a key.
            ///
            /// ```
            #[doc = concat!("use fips204::", $name, "::KG;")]
            /// use fips204::traits::{KeyGen, Signer, Verifier};
            ///
            /// let (public, private) = KG::keygen_from_seed(&[7; 32]); // a seed is secret, and random
            /// let prepared = private.prepare();
            /// for message in [b"one", b"two"] {
            ///     let signature = prepared.try_sign_with_seed(&[0; 32], message, b"")?;
            ///     assert!(public.verify(message, &signature, b""));
            /// }
            /// # Ok::<(), &'static str>(())
            /// ```
            #[must_use]
            pub fn prepare(&self) -> PreparedPrivateKey {
                let mut prepared = PreparedPrivateKey(held());
                let place = prepared.0.array_mut();
                let made = AnySet::prepare_private_key(Self::SET, self.0.given(), place);
                ended("prepare", made.map_err(why));
                prepared
            }
        }

        impl PreparedPublicKey {
            /// The key that this one was made from; if this one was wiped, a wiped one. Its bytes come first in a prepared key.
            ///
            /// ```
            #[doc = concat!("use fips204::", $name, "::KG;")]
            /// use fips204::traits::KeyGen;
            ///
            /// let (public, private) = KG::keygen_from_seed(&[7; 32]); // a seed is secret, and random
            /// assert_eq!(public.prepare().key().as_bytes(), public.as_bytes());
            /// # let _ = (public, private);
            /// ```
            #[must_use]
            pub fn key(&self) -> PublicKey {
                set::PublicKey(self.0.copied_to(Wiped::zeros()))
            }

            /// Begins a message in pieces, as `message_hasher` of the key does. Takes [`STACK_MU`](crate::STACK_MU) bytes of stack.
            ///
            /// # Errors
            /// The context has more than 255 bytes, or the key was wiped.
            ///
            /// ```
            #[doc = concat!("use fips204::", $name, "::KG;")]
            /// use fips204::traits::KeyGen;
            ///
            /// let (public, private) = KG::keygen_from_seed(&[7; 32]); // a seed is secret, and random
            /// let mut hasher = public.prepare().message_hasher(b"a context")?;
            /// hasher.update(b"a message");
            /// let mut same = private.message_hasher(b"a context")?;
            /// same.update(b"a message");
            /// assert_eq!(hasher.finalize(), same.finalize());
            /// # let _ = (public, private);
            /// # Ok::<(), fips204::Error>(())
            /// ```
            pub fn message_hasher(&self, ctx: &[u8]) -> Result<MessageHasher, Error> {
                MessageHasher::of_public_key(PublicKey::SET, self.0.front(PK_LEN), ctx)
            }

            /// Whether the key accepts the signature of the hash `mu` of a message (Algorithm 8, with mu given). False for a key that
            /// was wiped. Takes [`stack::VERIFY_PREPARED`] bytes of stack.
            ///
            /// ```
            #[doc = concat!("use fips204::", $name, "::KG;")]
            /// use fips204::traits::KeyGen;
            ///
            /// let (public, private) = KG::keygen_from_seed(&[7; 32]); // a seed is secret, and random
            /// let mu = public.message_hasher(b"a context")?.finalize(); // of the empty message
            /// let mut signature = private.try_sign_mu_with_seed(&[0; 32], &mu)?;
            /// let prepared = public.prepare();
            /// assert!(prepared.verify_mu(&mu, &signature));
            /// signature[0] ^= 1;
            /// assert!(!prepared.verify_mu(&mu, &signature));
            /// # Ok::<(), &'static str>(())
            /// ```
            #[must_use]
            pub fn verify_mu(&self, mu: &[u8; 64], sig: &[u8; SIG_LEN]) -> bool {
                self.accepts(&Input::Mu(mu), sig)
            }

            fn accepts(&self, input: &Input<'_>, signature: &[u8; SIG_LEN]) -> bool {
                AnySet::verify_prepared(PublicKey::SET, self.0.given(), input, signature) == Ok(true)
            }
        }

        impl Verifier for PreparedPublicKey {
            type Signature = [u8; SIG_LEN];

            fn verify(&self, message: &[u8], signature: &[u8; SIG_LEN], ctx: &[u8]) -> bool {
                self.accepts(&Input::Message(message, ctx), signature)
            }

            fn hash_verify(
                &self,
                hash: &[u8],
                signature: &[u8; SIG_LEN],
                ctx: &[u8],
                hash_oid: &[u8],
            ) -> bool {
                self.accepts(&Input::Digest(hash, ctx, hash_oid), signature)
            }
        }

        impl PreparedPrivateKey {
            /// The key that this one was made from; if this one was wiped, a wiped one. Its bytes come first in a prepared key.
            ///
            /// ```
            #[doc = concat!("use fips204::", $name, "::KG;")]
            /// use fips204::traits::KeyGen;
            ///
            /// let (public, private) = KG::keygen_from_seed(&[7; 32]); // a seed is secret, and random
            /// assert_eq!(private.prepare().key().as_bytes(), private.as_bytes());
            /// # let _ = (public, private);
            /// ```
            #[must_use]
            pub fn key(&self) -> PrivateKey {
                set::PrivateKey(self.0.copied_to(held()))
            }

            /// Begins a message in pieces, as `message_hasher` of the key does. Takes [`STACK_MU`](crate::STACK_MU) bytes of stack.
            ///
            /// # Errors
            /// The context has more than 255 bytes, or the key was wiped.
            ///
            /// ```
            #[doc = concat!("use fips204::", $name, "::KG;")]
            /// use fips204::traits::KeyGen;
            ///
            /// let (public, private) = KG::keygen_from_seed(&[7; 32]); // a seed is secret, and random
            /// let mut hasher = private.prepare().message_hasher(b"a context")?;
            /// hasher.update(b"a message");
            /// let mut same = public.message_hasher(b"a context")?;
            /// same.update(b"a message");
            /// assert_eq!(hasher.finalize(), same.finalize());
            /// # let _ = (public, private);
            /// # Ok::<(), fips204::Error>(())
            /// ```
            pub fn message_hasher(&self, ctx: &[u8]) -> Result<MessageHasher, Error> {
                MessageHasher::of_private_key(PrivateKey::SET, self.0.front(SK_LEN), ctx)
            }

            /// Signs the hash `mu` of a message, with random bytes of the operating system's generator. Takes
            /// [`stack::SIGN_PREPARED`] bytes of stack.
            ///
            /// # Errors
            /// The generator failed; the key was wiped; all 814 attempts were rejected, as with a damaged key; or rejection
            /// sampling reached its limit; nobody knows such a key.
            ///
            /// ```
            #[doc = concat!("let (public, private) = fips204::", $name, "::try_keygen()?;")]
            /// let prepared = private.prepare();
            /// let mu = prepared.message_hasher(b"a context")?.finalize(); // of the empty message
            /// let signature = prepared.try_sign_mu(&mu)?;
            /// assert!(public.verify_mu(&mu, &signature));
            /// # Ok::<(), fips204::Error>(())
            /// ```
            #[cfg(feature = "default-rng")]
            pub fn try_sign_mu(&self, mu: &[u8; 64]) -> Result<[u8; SIG_LEN], Error> {
                self.try_sign_mu_with_rng(&mut crate::rng::system(), mu)
            }

            /// Signs the hash `mu` of a message, with 32 bytes of a generator, which is asked once. Takes
            /// [`stack::SIGN_PREPARED`] bytes of stack.
            ///
            /// # Errors
            /// The generator failed; the key was wiped; all 814 attempts were rejected, as with a damaged key; or rejection
            /// sampling reached its limit; nobody knows such a key.
            ///
            /// ```
            /// # use fips204::{CryptoRng, RngCore};
            #[doc = concat!("use fips204::", $name, "::PrivateKey;")]
            ///
            /// # fn example(private: &PrivateKey, your_generator: &mut (impl RngCore + CryptoRng)) -> Result<(), &'static str> {
            /// let mu = private.message_hasher(b"a context")?.finalize(); // of the empty message
            /// let prepared = private.prepare();
            /// let signature = prepared.try_sign_mu_with_rng(your_generator, &mu)?;
            /// # let _ = signature;
            /// # Ok(())
            /// # }
            /// ```
            #[cfg(feature = "rand_core")]
            pub fn try_sign_mu_with_rng(
                &self,
                rng: &mut (impl RngCore + CryptoRng),
                mu: &[u8; 64],
            ) -> Result<[u8; SIG_LEN], Error> {
                let mut random = Wiped::zeros();
                draw(rng, &mut random, Fault::InternalRng)?;
                self.try_sign_mu_with_seed(random.array(), mu)
            }

            /// Signs the hash `mu` of a message, with these random bytes. 32 zeros give the deterministic variant. Takes
            /// [`stack::SIGN_PREPARED`] bytes of stack.
            ///
            /// # Errors
            /// The key was wiped; all 814 attempts were rejected, as with a damaged key; or rejection sampling reached its
            /// limit; nobody knows such a key.
            ///
            /// ```
            #[doc = concat!("use fips204::", $name, "::KG;")]
            /// use fips204::traits::KeyGen;
            ///
            /// let (_, private) = KG::keygen_from_seed(&[7; 32]); // a seed is secret, and random
            /// let mu = private.message_hasher(b"a context")?.finalize(); // of the empty message
            /// let signature = private.prepare().try_sign_mu_with_seed(&[0; 32], &mu)?;
            /// assert_eq!(signature, private.try_sign_mu_with_seed(&[0; 32], &mu)?);
            /// # Ok::<(), &'static str>(())
            /// ```
            pub fn try_sign_mu_with_seed(
                &self,
                seed: &[u8; 32],
                mu: &[u8; 64],
            ) -> Result<[u8; SIG_LEN], Error> {
                Ok(self.sign(seed, &Input::Mu(mu))?)
            }

            fn sign(
                &self,
                random: &[u8; 32],
                input: &Input<'_>,
            ) -> Result<[u8; SIG_LEN], &'static str> {
                let key = self.0.given();
                set::signed(|place| AnySet::sign_prepared(PrivateKey::SET, key, random, input, place))
            }
        }

        impl Signer for PreparedPrivateKey {
            type Signature = [u8; SIG_LEN];
            type PublicKey = PublicKey;

            fn try_sign_with_seed(
                &self,
                seed: &[u8; 32],
                message: &[u8],
                ctx: &[u8],
            ) -> Result<[u8; SIG_LEN], &'static str> {
                self.sign(seed, &Input::Message(message, ctx))
            }

            fn try_hash_sign_with_seed(
                &self,
                seed: &[u8; 32],
                hash: &[u8],
                ctx: &[u8],
                hash_oid: &[u8],
            ) -> Result<[u8; SIG_LEN], &'static str> {
                self.sign(seed, &Input::Digest(hash, ctx, hash_oid))
            }

            /// # Panics
            /// The key was wiped; or rejection sampling reached its limit; nobody knows such a key.
            fn get_public_key(&self) -> PublicKey {
                // The bytes of the plain key come first.
                set::public_key(PrivateKey::SET, self.0.front(SK_LEN))
            }
        }
    };
}

#[cfg(any(
    feature = "ml-dsa-44-bare",
    feature = "ml-dsa-65-bare",
    feature = "ml-dsa-87-bare"
))]
pub(crate) use prepared_keys;
