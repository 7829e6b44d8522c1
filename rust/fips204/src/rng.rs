//! Generators of random bytes.

use crate::proved::fips204_shake::bytes::Fault;
use crate::wiped::Wiped;
use crate::{CryptoRng, RngCore, RngError};
use core::borrow::BorrowMut;
use core::num::NonZeroU32;

/// A generator that is one function, for a source of random bytes that has no type of `rand_core`. The function fills a slice and
/// says whether it could; it has to be fit for cryptography.
///
/// ```
/// # #[cfg(feature = "ml-dsa-65-bare")] {
/// use fips204::{FillRng, ml_dsa_65};
///
/// /// Stands for a call of your device's driver.
/// fn device_fill(out: &mut [u8]) -> Result<(), ()> {
///     # out.fill(7);
///     Ok(())
/// }
///
/// let mut rng = FillRng(|out: &mut [u8]| device_fill(out).is_ok());
/// let (public, private) = ml_dsa_65::try_keygen_with_rng(&mut rng)?;
/// # let _ = (public, private);
/// # }
/// # Ok::<(), &'static str>(())
/// ```
pub struct FillRng<F>(pub F);

impl<F: FnMut(&mut [u8]) -> bool> RngCore for FillRng<F> {
    fn next_u32(&mut self) -> u32 {
        rand_core::impls::next_u32_via_fill(self)
    }

    fn next_u64(&mut self) -> u64 {
        rand_core::impls::next_u64_via_fill(self)
    }

    fn fill_bytes(&mut self, dest: &mut [u8]) {
        self.try_fill_bytes(dest).expect("the generator failed");
    }

    fn try_fill_bytes(&mut self, dest: &mut [u8]) -> Result<(), RngError> {
        const FAILED: NonZeroU32 = NonZeroU32::new(RngError::CUSTOM_START).unwrap();
        if (self.0)(dest) {
            Ok(())
        } else {
            Err(FAILED.into())
        }
    }
}

impl<F: FnMut(&mut [u8]) -> bool> CryptoRng for FillRng<F> {}

impl<F> core::fmt::Debug for FillRng<F> {
    fn fmt(&self, f: &mut core::fmt::Formatter<'_>) -> core::fmt::Result {
        f.debug_struct("FillRng").finish_non_exhaustive()
    }
}

/// A generator of `rand_core` 0.10 as one that the calls here take. Takes no stack of its own.
///
/// ```
/// # #[cfg(feature = "ml-dsa-65-bare")] {
/// use fips204::ml_dsa_65::try_keygen_with_rng;
/// use rand_core_0_10::TryCryptoRng; // the crate rand_core, of version 0.10
///
/// # fn example(your_generator: &mut impl TryCryptoRng) -> Result<(), &'static str> {
/// let (public, private) = try_keygen_with_rng(&mut fips204::of_rand_core_0_10(your_generator))?;
/// # let _ = (public, private);
/// # Ok(())
/// # }
/// # }
/// ```
#[cfg(feature = "rand_core-0_10")]
pub fn of_rand_core_0_10(
    rng: &mut (impl rand_core_0_10::TryCryptoRng + ?Sized),
) -> impl RngCore + CryptoRng {
    FillRng(|out: &mut [u8]| rng.try_fill_bytes(out).is_ok())
}

/// The operating system's generator.
#[cfg(feature = "default-rng")]
pub(crate) fn system() -> impl RngCore + CryptoRng {
    rand_core::OsRng
}

/// A generator that gives these bytes, to whoever asks for as many.
pub(crate) fn fixed(seed: &[u8; 32]) -> impl RngCore + CryptoRng {
    FillRng(move |out: &mut [u8]| {
        let fits = out.len() == seed.len();
        if fits {
            out.copy_from_slice(seed);
        }
        fits
    })
}

/// Draws 32 bytes of a generator into their place, from which they are not moved; an error is the text of the fault.
pub(crate) fn draw(
    rng: &mut (impl RngCore + CryptoRng),
    bytes: &mut Wiped<32, impl BorrowMut<[u8; 32]>>,
    fault: Fault,
) -> Result<(), &'static str> {
    rng.try_fill_bytes(bytes.array_mut())
        .map_err(|_| fault.as_str())
}
