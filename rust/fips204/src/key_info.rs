//! The traits of the crates `pkcs8` 0.11 and `spki` 0.8. They read what `from_der` reads, and write what `write_der` of a public key
//! or of a seed writes.
#![allow(unused_macros, unused_imports)] // no set may be chosen

use crate::Error;
use crate::proved::fips204_shake::bytes::SetName;
use crate::seed::Seed;
use crate::set::{Named, PrivateKey, PublicKey, Set};
use crate::signatures::Signature;
use crate::wiped::WipedVec;
use pkcs8::der::{self, AnyRef, asn1::BitString};
use pkcs8::spki::{
    self, AlgorithmIdentifier, AssociatedAlgorithmIdentifier, SignatureAlgorithmIdentifier,
    SignatureBitStringEncoding,
};
use pkcs8::{
    AlgorithmIdentifierRef, Document, EncodePrivateKey, EncodePublicKey, KeyError,
    ObjectIdentifier, PrivateKeyInfoRef, SecretDocument, SubjectPublicKeyInfoRef,
};

/// The identifier of a set (RFC 9881, section 2), which has no parameters.
const fn identifier(set: SetName) -> AlgorithmIdentifierRef<'static> {
    let oid = match set {
        SetName::MlDsa44 => "2.16.840.1.101.3.4.3.17",
        SetName::MlDsa65 => "2.16.840.1.101.3.4.3.18",
        SetName::MlDsa87 => "2.16.840.1.101.3.4.3.19",
    };
    AlgorithmIdentifier {
        oid: ObjectIdentifier::new_unwrap(oid),
        parameters: None,
    }
}

/// The key of a private key's DER, by its `from_der`. A key of another set is an unknown algorithm.
fn read<K>(
    set: SetName,
    info: &PrivateKeyInfoRef<'_>,
    from_der: impl FnOnce(&[u8]) -> Result<K, Error>,
) -> pkcs8::Result<K> {
    info.algorithm.assert_algorithm_oid(identifier(set).oid)?;
    // (wiped when it is dropped)
    let der = SecretDocument::encode_msg(info)?;
    from_der(der.as_bytes()).map_err(|_| KeyError::Invalid.into())
}

/// Reads what `from_der` reads. A key of another set is an unknown algorithm.
impl<const PK: usize, const SK: usize, const SIG: usize> TryFrom<PrivateKeyInfoRef<'_>>
    for PrivateKey<PK, SK, SIG>
where
    Set<PK, SK, SIG>: Named,
{
    type Error = pkcs8::Error;

    fn try_from(info: PrivateKeyInfoRef<'_>) -> pkcs8::Result<Self> {
        read(Self::SET, &info, Self::from_der)
    }
}

/// Reads what `from_der` reads. A key of another set is an unknown algorithm, and one without its seed is invalid.
impl<const PK: usize, const SK: usize, const SIG: usize> TryFrom<PrivateKeyInfoRef<'_>>
    for Seed<PK, SK, SIG>
where
    Set<PK, SK, SIG>: Named,
{
    type Error = pkcs8::Error;

    fn try_from(info: PrivateKeyInfoRef<'_>) -> pkcs8::Result<Self> {
        read(Self::SET, &info, Self::from_der)
    }
}

/// Writes what `write_der` writes. A seed that was wiped is invalid.
impl<const PK: usize, const SK: usize, const SIG: usize> EncodePrivateKey for Seed<PK, SK, SIG>
where
    Set<PK, SK, SIG>: Named,
{
    fn to_pkcs8_der(&self) -> pkcs8::Result<SecretDocument> {
        let mut der = WipedVec(alloc::vec![0; Self::DER_LEN]);
        self.write_der(&mut der.0).map_err(|_| KeyError::Invalid)?;
        Ok(SecretDocument::try_from(&der.0[..])?)
    }
}

/// Reads what `from_der` reads. A key of another set is an unknown algorithm.
impl<const PK: usize, const SK: usize, const SIG: usize> TryFrom<SubjectPublicKeyInfoRef<'_>>
    for PublicKey<PK, SK, SIG>
where
    Set<PK, SK, SIG>: Named,
{
    type Error = spki::Error;

    fn try_from(info: SubjectPublicKeyInfoRef<'_>) -> spki::Result<Self> {
        info.algorithm
            .assert_algorithm_oid(identifier(Self::SET).oid)?;
        let der = Document::encode_msg(&info)?;
        Self::from_der(der.as_bytes()).map_err(|_| spki::Error::KeyMalformed)
    }
}

/// Writes what `write_der` writes. A key that was wiped is malformed.
impl<const PK: usize, const SK: usize, const SIG: usize> EncodePublicKey for PublicKey<PK, SK, SIG>
where
    Set<PK, SK, SIG>: Named,
{
    fn to_public_key_der(&self) -> spki::Result<Document> {
        let mut der = alloc::vec![0; Self::DER_LEN];
        self.write_der(&mut der)
            .map_err(|_| spki::Error::KeyMalformed)?;
        Ok(Document::try_from(der)?)
    }
}

impl<const SIG: usize> SignatureBitStringEncoding for Signature<SIG> {
    fn to_bitstring(&self) -> der::Result<BitString> {
        BitString::from_bytes(&self.0)
    }
}

/// The algorithm of keys and signatures of a set: what stands before each `impl`, the type, its condition, and the set's name.
macro_rules! identified {
    (($($before:tt)*), $key:ty, ($($condition:tt)*), $set:expr) => {
        impl $($before)* SignatureAlgorithmIdentifier for $key $($condition)* {
            type Params = AnyRef<'static>;

            const SIGNATURE_ALGORITHM_IDENTIFIER: AlgorithmIdentifier<AnyRef<'static>> =
                identifier($set);
        }
    };
}

identified!((<const PK: usize, const SK: usize, const SIG: usize>), PrivateKey<PK, SK, SIG>,
    (where Set<PK, SK, SIG>: Named), Self::SET);
identified!((<const PK: usize, const SK: usize, const SIG: usize>), PublicKey<PK, SK, SIG>,
    (where Set<PK, SK, SIG>: Named), Self::SET);

/// The traits of the other types of a set.
macro_rules! of_set {
    ($set:ident, $name:ident) => {
        const _: () = {
            use crate::$set::{
                PreparedPrivateKey, PreparedPublicKey, PrivateKey, PublicKey, Signature,
            };

            impl AssociatedAlgorithmIdentifier for Signature {
                type Params = AnyRef<'static>;

                const ALGORITHM_IDENTIFIER: AlgorithmIdentifier<AnyRef<'static>> =
                    identifier(SetName::$name);
            }

            identified!((), PreparedPrivateKey, (), SetName::$name);
            identified!((), PreparedPublicKey, (), SetName::$name);

            /// Reads what `from_der` reads, and prepares that.
            impl TryFrom<PrivateKeyInfoRef<'_>> for PreparedPrivateKey {
                type Error = pkcs8::Error;

                fn try_from(info: PrivateKeyInfoRef<'_>) -> Result<Self, pkcs8::Error> {
                    Ok(PrivateKey::try_from(info)?.prepare())
                }
            }

            /// Reads what `from_der` reads, and prepares that.
            impl TryFrom<SubjectPublicKeyInfoRef<'_>> for PreparedPublicKey {
                type Error = spki::Error;

                fn try_from(info: SubjectPublicKeyInfoRef<'_>) -> spki::Result<Self> {
                    Ok(PublicKey::try_from(info)?.prepare())
                }
            }

            impl EncodePublicKey for PreparedPublicKey {
                fn to_public_key_der(&self) -> spki::Result<Document> {
                    self.key().to_public_key_der()
                }
            }
        };
    };
}

#[cfg(feature = "ml-dsa-44-bare")]
of_set!(ml_dsa_44, MlDsa44);
#[cfg(feature = "ml-dsa-65-bare")]
of_set!(ml_dsa_65, MlDsa65);
#[cfg(feature = "ml-dsa-87-bare")]
of_set!(ml_dsa_87, MlDsa87);
