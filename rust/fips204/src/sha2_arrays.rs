//! SHA-2 of the crate `sha2`, with digests that are arrays.

use sha2::Digest as _;

/// A hash function.
pub trait Digest: Sized {
    /// The array of a digest.
    type Output;

    /// A hasher of nothing yet.
    fn new() -> Self;

    /// Adds data to the end of the message.
    fn update<T: AsRef<[u8]>>(&mut self, data: T);

    /// The digest of the message.
    fn finalize(self) -> Self::Output;

    /// The digest of data.
    fn digest<T: AsRef<[u8]>>(data: T) -> Self::Output {
        let mut hasher = Self::new();
        hasher.update(data);
        hasher.finalize()
    }
}

macro_rules! hash_functions {
    ($($name:ident: $size:literal),*) => {
        $(
            /// The hash function of this name.
            #[derive(Clone, Debug)]
            pub struct $name(sha2::$name);

            impl Digest for $name {
                type Output = [u8; $size];

                fn new() -> $name {
                    $name(sha2::$name::new())
                }

                fn update<T: AsRef<[u8]>>(&mut self, data: T) {
                    self.0.update(data);
                }

                fn finalize(self) -> [u8; $size] {
                    self.0.finalize().into()
                }
            }
        )*
    };
}

hash_functions!(Sha224: 28, Sha256: 32, Sha384: 48, Sha512: 64, Sha512_256: 32);
