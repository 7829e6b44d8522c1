//! The calls of `c/mldsa.h`. Each makes slices of pointers and lengths, and calls the function of its name. All that is unsafe
//! of these calls stands here; what the caller owes, the header says. A release build alone links: without `lto` Rust's own code
//! asks for what unwinds.
#![no_std]

use fips204::proved::mldsa_c;

/// The bytes that a call is given.
///
/// # Safety
/// There are so many bytes at this place, and nobody writes them while the call lasts; or the length is 0.
unsafe fn given<'a>(place: *const u8, length: usize) -> &'a [u8] {
    if length == 0 {
        return &[];
    }
    // SAFETY: what this function asks for.
    unsafe { core::slice::from_raw_parts(place, length) }
}

/// The bytes that a call may write.
///
/// # Safety
/// There are so many bytes at this place, and nobody else reads or writes them while the call lasts; or the length is 0.
unsafe fn written<'a>(place: *mut u8, length: usize) -> &'a mut [u8] {
    if length == 0 {
        return &mut [];
    }
    // SAFETY: what this function asks for.
    unsafe { core::slice::from_raw_parts_mut(place, length) }
}

/// Exports a function of `mldsa_c`: behind its name numbers, then slices that it reads, then those that it writes, each with the
/// name of its length.
macro_rules! export {
    ($module:ident::$name:ident($($number:ident)?; $($given:ident $given_len:ident),*; $($place:ident $place_len:ident),*)) => {
        /// # Safety
        /// Behind each pointer are as many bytes as its length says; those that are written overlap no others.
        #[unsafe(no_mangle)]
        pub unsafe extern "C" fn $name(
            $($number: u32,)?
            $($given: *const u8, $given_len: usize,)*
            $($place: *mut u8, $place_len: usize,)*
        ) -> u32 {
            mldsa_c::$module::$name(
                $($number,)?
                // SAFETY: the caller owes it.
                $(unsafe { given($given, $given_len) },)*
                // SAFETY: the caller owes it.
                $(unsafe { written($place, $place_len) },)*
            )
        }
    };
}

include!("exports.rs");

#[cfg(not(target_arch = "wasm32"))]
#[link(name = "c")]
unsafe extern "C" {
    safe fn abort() -> !;
}
#[cfg(target_arch = "wasm32")]
use core::arch::wasm32::unreachable as abort;

/// The source is proved to reach no panic. If the code did, the process would end.
#[panic_handler]
fn panic(_: &core::panic::PanicInfo<'_>) -> ! {
    abort()
}
