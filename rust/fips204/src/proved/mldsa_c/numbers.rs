// Made by tools/erase of crates/mldsa_c/src/numbers.rt. Change that, not this.
//! The numbers that the exports return, and their texts. `c/exports.py` made this file from c/mldsa.h: edit that one.

use crate::proved::fips204_shake::bytes::Fault;
use crate::proved::fips204_shake::der::DerFault;
use crate::proved::fips204_shake::pem::PemFault;

/// Done, and the arrays are written.
pub(crate) const DONE: u32 = 0;

/// The result of a question is no.
pub(crate) const NO: u32 = 2;

/// An array has the wrong length.
pub(crate) const WRONG_LENGTH: u32 = 3;

/// The last byte of the state is 0 or above 136.
pub(crate) const BROKEN_STATE: u32 = 13;

/// A value of this prepared key is out of range, so no call has written it.
pub(crate) const NOT_PREPARED: u32 = 14;

/// The key is one of another parameter set.
pub(crate) const OTHER_SET: u32 = 21;

/// The parts of the private key do not belong together.
pub(crate) const INCONSISTENT: u32 = 22;

/// The private key has no seed.
pub(crate) const NO_SEED: u32 = 23;

/// The text of a number that no call returns.
pub(crate) const NO_STATUS: &str = "no result of this library";

/// The text of each number from 0 on.
pub(crate) const TEXTS: [&str; 32] = [
    "no error, or the result yes",
    NO_STATUS,
    "no",
    "an array has the wrong length",
    "ML-DSA.Sign: ctx too long",
    "HashML-DSA.Sign: ctx too long",
    "HashML-DSA.Sign: OID is empty",
    "HashML-DSA.Sign: OID is not DER encoded",
    "Hash of message is too long, should not be more than 1KiB",
    "HashML-DSA.Sign: digest length does not match the OID",
    "ML-DSA.Sign: too many attempts",
    "the private key is damaged: s1 or s2 is out of range",
    "sampling limit reached",
    "the state of a message in pieces is broken",
    "no call has written this prepared key",
    "its DER is cut short",
    "more follows behind the end of its DER",
    "its DER is damaged",
    "it has a private key of another version",
    "its key is not one of ML-DSA-44, ML-DSA-65 or ML-DSA-87",
    "its key has a wrong length",
    "its key is one of another parameter set",
    "the private key is not consistent",
    "it has no seed: an expanded key does not reveal its seed",
    "it is not in PEM: no line -----BEGIN comes first",
    "it is encrypted: decrypt it first",
    "it has a certificate: take the key out of it",
    "it has a key of another kind",
    "it has a key of another kind, or something else than a key",
    "it is cut short",
    "more follows behind its end",
    "its text is damaged",
];

/// The status of a fault.
pub(crate) fn status_of(fault: Fault) -> u32 {
    match fault {
        Fault::KeyGenRng => 252,
        Fault::SignCtx => 4,
        Fault::SignRng => 253,
        Fault::HashCtx => 5,
        Fault::OidEmpty => 6,
        Fault::OidNotDer => 7,
        Fault::DigestTooLong => 8,
        Fault::DigestLength => 9,
        Fault::HashRng => 254,
        Fault::InternalRng => 255,
        Fault::TooManyAttempts => 10,
        Fault::KeyRange => 11,
        Fault::SamplingLimit => 12,
    }
}

/// The status of a fault of DER.
pub(crate) fn status_of_der(fault: DerFault) -> u32 {
    match fault {
        DerFault::Short => 15,
        DerFault::Behind => 16,
        DerFault::Element => 17,
        DerFault::Version => 18,
        DerFault::OtherAlgorithm => 19,
        DerFault::KeyLength => 20,
    }
}

/// The status of a fault of PEM.
pub(crate) fn status_of_pem(fault: PemFault) -> u32 {
    match fault {
        PemFault::NotPem => 24,
        PemFault::Encrypted => 25,
        PemFault::Certificate => 26,
        PemFault::OtherKind => 27,
        PemFault::OtherLabel => 28,
        PemFault::CutShort => 29,
        PemFault::Behind => 30,
        PemFault::Damaged => 31,
        PemFault::TooLong => 20,
    }
}
