//! Why a call returns an error.

use crate::proved::fips204_shake::bytes::Refusal;
use crate::proved::mldsa_c::numbers::{self, TEXTS};
use crate::proved::mldsa_c::statuses::status_of_refusal;
use crate::proved::mldsa_c::texts::text_of;

/// The error of each call with a key or a hasher that `zeroize` wiped.
pub(crate) const WIPED: &str = "the key or the hasher was wiped";

/// The error of an array that has another length than the set wants.
pub(crate) const WRONG_LENGTH: &str = TEXTS[numbers::WRONG_LENGTH as usize];

/// The text of a refusal, which is the one that C has.
fn text(refusal: Refusal) -> &'static str {
    text_of(status_of_refusal(refusal))
}

/// The same, of a call with what a type of this crate holds. Its length is right, unless it was wiped: then it gives no bytes.
#[allow(dead_code)] // no set may be chosen
pub(crate) fn why(refusal: Refusal) -> &'static str {
    match refusal {
        Refusal::Length(_) => WIPED,
        refusal => text(refusal),
    }
}

/// What a call returned that has no error. It panics where there is none, and says the call's name and the fault.
#[allow(dead_code)] // no set may be chosen
pub(crate) fn ended<T>(call: &str, made: Result<T, &'static str>) -> T {
    made.unwrap_or_else(|fault| panic!("{call}: {fault}"))
}

impl core::fmt::Display for Refusal {
    fn fmt(&self, f: &mut core::fmt::Formatter<'_>) -> core::fmt::Result {
        f.write_str(text(*self))
    }
}

impl core::error::Error for Refusal {}

/// The error of the calls that the crate fips204 does not have. Those that it has return its `&'static str`; `?` turns either into
/// the other, and this one into a `Box<dyn Error>` and its like.
///
/// ```
/// # #[cfg(feature = "ml-dsa-65-bare")] {
/// use fips204::ml_dsa_65::{KG, PrivateKey};
/// use fips204::traits::{KeyGen, Signer};
///
/// fn signed(stored: &[u8]) -> Result<[u8; 3309], fips204::Error> {
///     let private = PrivateKey::try_from(stored)?; // an `Error`
///     Ok(private.try_sign_with_seed(&[0; 32], b"a message", b"")?) // a `&'static str`
/// }
///
/// let (_, private) = KG::keygen_from_seed(&[7; 32]); // a seed is secret, and random
/// assert!(signed(private.as_bytes()).is_ok());
/// assert_eq!(signed(b"short").unwrap_err().to_string(), "an array has the wrong length");
/// # }
/// ```
#[derive(Clone, Copy, Debug, PartialEq, Eq, Hash)]
pub struct Error(&'static str);

impl Error {
    /// The text of the error. If the library rejected a call, it is the text that `mldsa_text` has in C.
    ///
    /// ```
    /// # #[cfg(feature = "ml-dsa-65-bare")] {
    /// let refused = fips204::ml_dsa_65::PublicKey::try_from(&[0; 7][..]);
    /// assert_eq!(refused.unwrap_err().as_str(), "an array has the wrong length");
    /// # }
    /// ```
    #[must_use]
    pub const fn as_str(&self) -> &'static str {
        self.0
    }
}

impl core::fmt::Display for Error {
    fn fmt(&self, f: &mut core::fmt::Formatter<'_>) -> core::fmt::Result {
        f.write_str(self.0)
    }
}

impl core::error::Error for Error {}

impl From<&'static str> for Error {
    fn from(text: &'static str) -> Self {
        Error(text)
    }
}

impl From<Error> for &'static str {
    fn from(error: Error) -> Self {
        error.0
    }
}
