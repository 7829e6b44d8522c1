//! Reads a private key, signs and verifies, by code that knows of no scheme: over ml-dsa 0.1, over keys of this library, and over prepared
//! ones. All write the same public key and the same signature.

use pkcs8::{DecodePrivateKey, DecodePublicKey, EncodePrivateKey, EncodePublicKey};
use signature::{Keypair, SignatureEncoding, Signer, Verifier};

/// The public key in DER, and a signature of the message.
fn signed<K, S>(der: &[u8], message: &[u8]) -> [Vec<u8>; 2]
where
    K: DecodePrivateKey + Signer<S> + Keypair<VerifyingKey: EncodePublicKey>,
    S: SignatureEncoding,
{
    let key = K::from_pkcs8_der(der).expect("a key");
    let public = key.verifying_key().to_public_key_der().expect("its DER");
    let signature = key.sign(message).to_bytes().as_ref().to_vec();
    [public.as_bytes().to_vec(), signature]
}

/// Whether the public key in DER accepts the signature, and not of another message.
fn is_verified<V, S>([public, signature]: &[Vec<u8>; 2], message: &[u8]) -> bool
where
    V: DecodePublicKey + Verifier<S>,
    S: SignatureEncoding,
{
    let key = V::from_public_key_der(public).expect("a key");
    let signature = S::try_from(signature).ok().expect("a signature");
    key.verify(message, &signature).is_ok() && key.verify(b"another", &signature).is_err()
}

macro_rules! compared {
    ($params:ident, $set:ident) => {{
        use fips204::$set as ours;
        use ml_dsa::{Signature, SigningKey, VerifyingKey, $params};
        let message = b"a message";
        let written = ours::Seed::from_bytes(&[7; 32])
            .to_pkcs8_der()
            .expect("its DER");
        let der = written.as_bytes();
        let theirs = signed::<SigningKey<$params>, Signature<$params>>(der, message);
        assert_eq!(
            theirs,
            signed::<ours::PrivateKey, ours::Signature>(der, message)
        );
        assert_eq!(
            theirs,
            signed::<ours::PreparedPrivateKey, ours::Signature>(der, message)
        );
        assert!(is_verified::<VerifyingKey<$params>, Signature<$params>>(
            &theirs, message
        ));
        assert!(is_verified::<ours::PublicKey, ours::Signature>(
            &theirs, message
        ));
        assert!(is_verified::<ours::PreparedPublicKey, ours::Signature>(
            &theirs, message
        ));
    }};
}

fn main() {
    compared!(MlDsa44, ml_dsa_44);
    compared!(MlDsa65, ml_dsa_65);
    compared!(MlDsa87, ml_dsa_87);
    println!("the same");
}
