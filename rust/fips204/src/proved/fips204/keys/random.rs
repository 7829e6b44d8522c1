// Made by tools/erase of crates/fips204/src/keys/random.rt. Change that, not this.
//! The signing calls of plain and prepared keys, each written once over an input: they differ in where the 32 random bytes
//! come from.

use crate::proved::fips204::input::Input;
use crate::proved::fips204::ml_dsa::check_input;
use crate::proved::fips204::traits::{CryptoRngCore, DummyRng, draw};
use crate::proved::fips204_base::Fault;

/// A private key, plain or prepared, that signs an input with given random bytes.
pub(crate) trait SignsInput: Sized {
    /// The byte array of a signature.
    type Signature;

    /// Signs an input with these random bytes.
    fn sign_with(&self, random: &[u8; 32], input: &Input<'_>) -> Result<Self::Signature, Fault>;

}

/// Signs an input with 32 random bytes of the generator, which is asked once, and not for an input that is rejected.
/// Returns `refusal` if the generator fails.
pub(crate) fn sign_drawn<K: SignsInput, R: CryptoRngCore>(
    key: &K,
    rng: &mut R,
    input: &Input<'_>,
    refusal: Fault,
) -> Result<K::Signature, Fault> {
    check_input(input)?;
    key.sign_with(&draw(rng, refusal)?, input)
}

/// Signs an input with the random bytes `seed`: a generator returns them.
pub(crate) fn sign_seeded<K: SignsInput>(
    key: &K,
    seed: &[u8; 32],
    input: &Input<'_>,
) -> Result<K::Signature, Fault> {
    sign_drawn(key, &mut DummyRng { bytes: *seed }, input, Fault::SignRng)
}

/// Signs an input of a signing hook. The 32 random bytes are zeros without `hedged`; with it they are drawn from the
/// generator, which is asked once. Returns `Fault::InternalRng` if the generator fails.
pub(crate) fn sign_hedged<K: SignsInput, R: CryptoRngCore>(
    key: &K,
    rng: &mut R,
    input: &Input<'_>,
    hedged: bool,
) -> Result<K::Signature, Fault> {
    key.sign_with(&draw_if(hedged, rng)?, input)
}

/// The random bytes of a signing hook: 32 zeros without `hedged`; with it, 32 bytes drawn from the generator,
/// or `Fault::InternalRng` if that fails.
fn draw_if<R: CryptoRngCore>(hedged: bool, rng: &mut R) -> Result<[u8; 32], Fault> {
    if hedged {
        draw(rng, Fault::InternalRng)
    } else {
        Ok([0; 32])
    }
}
