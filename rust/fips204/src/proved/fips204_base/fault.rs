// Made by tools/erase of crates/fips204_base/src/fault.rt. Change that, not this.
//! The errors of the library.

use core::error::Error;
use core::fmt;

/// Why a call returned no result. `as_str` and `Display` return the text of each variant.
#[derive(Debug, Clone, Copy, PartialEq, Eq)]
pub enum Fault {
    /// The generator failed in key generation.
    KeyGenRng,
    /// The context of plain signing has more than 255 bytes.
    SignCtx,
    /// The generator failed in plain signing.
    SignRng,
    /// The context of pre-hash signing has more than 255 bytes.
    HashCtx,
    /// The object identifier of pre-hash signing is empty.
    OidEmpty,
    /// The object identifier of pre-hash signing is not a valid DER object identifier.
    OidNotDer,
    /// The digest of pre-hash signing has more than 1024 bytes.
    DigestTooLong,
    /// The digest does not match the output length of the hash function that a known object identifier names.
    DigestLength,
    /// The generator failed in pre-hash signing.
    HashRng,
    /// The generator failed in `sign_internal` or `sign_mu`, with `hedged`.
    InternalRng,
    /// All 814 attempts of signing were rejected.
    TooManyAttempts,
    /// The bytes encode no private key: a coefficient of s1 or s2 is out of range, so that its field is above
    /// `2 eta`.
    KeyRange,
    /// Rejection sampling reached its limit: a quarter of the output of an XOF had too few usable values.
    SamplingLimit,
}

impl Fault {
    /// The text of the error.
    pub fn as_str(&self) -> &'static str {
        match self {
            Fault::KeyGenRng => "KeyGen: Random number generator failed",
            Fault::SignCtx => "ML-DSA.Sign: ctx too long",
            Fault::SignRng => "ML-DSA.Sign: random number generator failed",
            Fault::HashCtx => "HashML-DSA.Sign: ctx too long",
            Fault::OidEmpty => "HashML-DSA.Sign: OID is empty",
            Fault::OidNotDer => "HashML-DSA.Sign: OID is not DER encoded",
            Fault::DigestTooLong => "Hash of message is too long, should not be more than 1KiB",
            Fault::DigestLength => "HashML-DSA.Sign: digest length does not match the OID",
            Fault::HashRng => "HashML-DSA.Sign: random number generator failed",
            Fault::InternalRng => "ML-DSA.Sign_internal: random number generator failed",
            Fault::TooManyAttempts => "ML-DSA.Sign: too many attempts",
            Fault::KeyRange => "Alg 25: s1 or s2 out of range",
            Fault::SamplingLimit => "sampling limit reached",
        }
    }
}

impl fmt::Display for Fault {
    fn fmt(&self, f: &mut fmt::Formatter<'_>) -> fmt::Result {
        f.write_str(self.as_str())
    }
}

impl Error for Fault {}
