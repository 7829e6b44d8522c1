//! Takes all features of the crate, beside one crate that takes few, one that asks for the original by its name, and the original.

use proved::traits::{SerDes, Signer, Verifier};
use rand_core::{CryptoRng, RngCore};

/// Signs with any generator of `rand_core`.
fn signed<R: RngCore + CryptoRng>(
    key: &proved::ml_dsa_44::PrivateKey,
    rng: &mut R,
) -> Result<[u8; proved::ml_dsa_44::SIG_LEN], &'static str> {
    key.try_sign_with_rng(rng, b"a message", b"")
}

fn main() -> Result<(), &'static str> {
    // The key types are one, whoever made the key.
    let mut counter = bare::Counter(6);
    let (public, private) = bare::pair(&mut counter)?;
    let ours: proved::ml_dsa_44::PublicKey = public.clone();
    let by_counter = signed(&private, &mut counter)?;
    let by_function = bare::sign(&private, b"a message", |out| {
        out.fill(8);
        true
    })?;
    assert_eq!(by_counter, by_function);
    assert!(ours.verify(b"a message", &by_counter, b""));
    assert!(bare::sign(&private, b"a message", |_| false).is_err());

    let (public, bound): (proved::ml_dsa_65::PublicKey, _) = through::pair()?;
    let signature = bound.try_sign(b"a message", b"a context")?;
    assert!(public.verify(b"a message", &signature, b"a context"));
    assert!(bound.try_sign(b"a message", b"").is_err());
    assert_eq!(public.into_bytes(), bound.get_public_key().into_bytes());
    assert_eq!(fips204::NAME, "original");
    println!("three ways");
    Ok(())
}
