//! The choice of code for SSE4.2, for AVX2 and for AVX-512 when the program runs. What is unsafe of this package stands here,
//! where `simd.rs` makes a vector of bytes, and for WebAssembly in `simd/wasm32.rs`.
#![allow(unsafe_code)]

#[cfg(target_arch = "x86_64")]
use core::sync::atomic::{AtomicU8, Ordering};

/// Declares a function that is compiled twice, the second time for processors with AVX2, BMI1 and BMI2, and that calls the one
/// of these that fits. What it calls in turn has to be inlined, to be compiled with it.
macro_rules! with_avx2 {
    ($($function:tt)+) => {
        crate::levels::chosen! { false; $($function)+ }
    };
}
pub(crate) use with_avx2;

/// The same, compiled a third time for processors that have SSE4.2, and not all of that.
macro_rules! with_sse42_and_avx2 {
    ($($function:tt)+) => {
        crate::levels::chosen! { cfg!(not(target_feature = "sse4.2")); $($function)+ }
    };
}
pub(crate) use with_sse42_and_avx2;

/// The level from which a function of either is compiled for AVX-512VL too, or 0 if it is not. Keccak's four states are vectors of
/// 256 bits, which are then rotated by one instruction, and chi is one as well. In the others the compiler takes vectors of 512
/// bits, and the first processors that have these slow down for them. What is in neither list gains little, and would be long.
#[allow(unused_macros)] // where nothing is chosen, and before Rust 1.89
macro_rules! level_of_avx512 {
    (f1600x4) => {
        crate::levels::AVX512
    };
    (write_lanes_ntt) => {
        crate::levels::WIDE
    };
    (write_lanes_inv_ntt) => {
        crate::levels::WIDE
    };
    (of) => {
        crate::levels::WIDE
    };
    (write_row_sums) => {
        crate::levels::WIDE
    };
    (write_multiple) => {
        crate::levels::WIDE
    };
    (write_multiples) => {
        crate::levels::WIDE
    };
    (write_difference) => {
        crate::levels::WIDE
    };
    (write_low_vector) => {
        crate::levels::WIDE
    };
    (write_hint) => {
        crate::levels::WIDE
    };
    (write_hinted) => {
        crate::levels::WIDE
    };
    ($other:ident) => {
        0
    };
}
#[allow(unused_imports)]
pub(crate) use level_of_avx512;

/// What both declare, after whether there is that for SSE4.2.
macro_rules! chosen {
    (
        $for_sse42:expr;
        $(#[$attribute:meta])*
        $visible:vis fn $name:ident $(<$(const $size:ident: usize),+>)? ($($argument:ident: $type:ty),+ $(,)?)
            $(-> $result:ty)? $body:block
    ) => {
        $(#[$attribute])*
        $visible fn $name $(<$(const $size: usize),+>)? ($($argument: $type),+) $(-> $result)? {
            #[inline(always)]
            fn for_any $(<$(const $size: usize),+>)? ($($argument: $type),+) $(-> $result)? $body

            #[cfg(all(
                target_arch = "x86_64",
                not(all(target_feature = "avx2", target_feature = "bmi1", target_feature = "bmi2"))
            ))]
            {
                #[target_feature(enable = "avx2,bmi1,bmi2")]
                fn for_avx2 $(<$(const $size: usize),+>)? ($($argument: $type),+) $(-> $result)? {
                    for_any($($argument),+)
                }
                // (each of these with a frame of its own, which is not in the stack beside that for AVX2)
                #[target_feature(enable = "sse4.2")]
                #[inline(never)]
                fn for_sse42 $(<$(const $size: usize),+>)? ($($argument: $type),+) $(-> $result)? {
                    for_any($($argument),+)
                }
                #[inline(never)]
                fn for_others $(<$(const $size: usize),+>)? ($($argument: $type),+) $(-> $result)? {
                    for_any($($argument),+)
                }
                #[cfg(avx512_is_stable)]
                if crate::levels::level_of_avx512!($name) > 0 && crate::levels::has(crate::levels::level_of_avx512!($name)) {
                    #[target_feature(enable = "avx512vl,bmi1,bmi2")]
                    fn for_avx512 $(<$(const $size: usize),+>)? ($($argument: $type),+) $(-> $result)? {
                        for_any($($argument),+)
                    }
                    // SAFETY: the processor has AVX-512VL, BMI1 and BMI2, and the system keeps its registers.
                    #[allow(unsafe_code)]
                    return unsafe { for_avx512($($argument),+) };
                }
                if crate::levels::has(crate::levels::AVX2) {
                    // SAFETY: the processor has AVX2, BMI1 and BMI2, and the system keeps its registers.
                    #[allow(unsafe_code)]
                    return unsafe { for_avx2($($argument),+) };
                }
                if $for_sse42 && crate::levels::has(crate::levels::SSE42) {
                    // SAFETY: the processor has SSE4.2, and what that stands on.
                    #[allow(unsafe_code)]
                    return unsafe { for_sse42($($argument),+) };
                }
                for_others($($argument),+)
            }
            #[cfg(not(all(
                target_arch = "x86_64",
                not(all(target_feature = "avx2", target_feature = "bmi1", target_feature = "bmi2"))
            )))]
            for_any($($argument),+)
        }
    };
    // a method, behind the names of its forms: such a function has none of its own in it
    (
        false;
        $for_any:ident $for_avx2:ident $for_others:ident
        $(#[$attribute:meta])*
        $visible:vis fn $name:ident $(<$(const $size:ident: usize),+>)? (&mut $self:ident $(, $argument:ident: $type:ty)* $(,)?)
            $(-> $result:ty)? $body:block
    ) => {
        $(#[$attribute])*
        $visible fn $name $(<$(const $size: usize),+>)? (&mut $self $(, $argument: $type)*) $(-> $result)? {
            #[cfg(all(
                target_arch = "x86_64",
                not(all(target_feature = "avx2", target_feature = "bmi1", target_feature = "bmi2"))
            ))]
            {
                if crate::levels::has(crate::levels::AVX2) {
                    // SAFETY: the processor has AVX2, BMI1 and BMI2, and the system keeps its registers.
                    #[allow(unsafe_code)]
                    return unsafe { $self.$for_avx2($($argument),*) };
                }
                $self.$for_others($($argument),*)
            }
            #[cfg(not(all(
                target_arch = "x86_64",
                not(all(target_feature = "avx2", target_feature = "bmi1", target_feature = "bmi2"))
            )))]
            $self.$for_any($($argument),*)
        }

        #[inline(always)]
        fn $for_any $(<$(const $size: usize),+>)? (&mut $self $(, $argument: $type)*) $(-> $result)? $body

        #[cfg(target_arch = "x86_64")]
        #[target_feature(enable = "avx2,bmi1,bmi2")]
        fn $for_avx2 $(<$(const $size: usize),+>)? (&mut $self $(, $argument: $type)*) $(-> $result)? {
            $self.$for_any($($argument),*)
        }

        #[cfg(target_arch = "x86_64")]
        #[inline(never)]
        fn $for_others $(<$(const $size: usize),+>)? (&mut $self $(, $argument: $type)*) $(-> $result)? {
            $self.$for_any($($argument),*)
        }
    };
}
pub(crate) use chosen;

/// The level of a processor of which no more than x86-64 itself is used.
#[cfg(target_arch = "x86_64")]
const ANY: u8 = 1;
/// That of one with SSE4.2, and with what that stands on: SSE3, SSSE3 and SSE4.1.
#[cfg(target_arch = "x86_64")]
pub(crate) const SSE42: u8 = 2;
/// That of one with AVX2, BMI1 and BMI2 too, if the system keeps its registers.
#[cfg(target_arch = "x86_64")]
pub(crate) const AVX2: u8 = 3;
/// That of one with AVX-512VL too, and with what that stands on: AVX-512F, FMA and F16C.
#[cfg(target_arch = "x86_64")]
pub(crate) const AVX512: u8 = 4;

/// That of one with AVX-512VBMI2 too: Intel's since Ice Lake, and AMD's since Zen 4, which run vectors of 512 bits at full speed.
#[cfg(target_arch = "x86_64")]
pub(crate) const WIDE: u8 = 5;

/// 0 until it was asked, then one of these. Whoever asks at the same time finds the same.
#[cfg(target_arch = "x86_64")]
static KNOWN: AtomicU8 = AtomicU8::new(0);

/// Whether the processor is of this level, from `SSE42` to `WIDE`, or above.
#[cfg(target_arch = "x86_64")]
#[allow(dead_code)] // where all is compiled for AVX2, nothing is chosen
#[inline(always)]
pub(crate) fn has(level: u8) -> bool {
    let known = KNOWN.load(Ordering::Relaxed);
    known >= level || known == 0 && asked() >= level
}

/// Asks, and keeps the answer.
#[cfg(target_arch = "x86_64")]
#[cold]
#[inline(never)]
fn asked() -> u8 {
    let found = found();
    KNOWN.store(found, Ordering::Relaxed);
    found
}

/// What the processor says.
#[cfg(target_arch = "x86_64")]
#[allow(unused_unsafe)] // `__cpuid` is safe in later versions of Rust
fn found() -> u8 {
    use core::arch::x86_64::{__cpuid, __cpuid_count, _xgetbv};

    /// Asks for the registers that the system keeps.
    #[target_feature(enable = "xsave")]
    fn kept() -> u64 {
        // SAFETY: the function is compiled for processors with XSAVE.
        unsafe { _xgetbv(0) }
    }

    // SAFETY: each x86-64 processor has `cpuid`, with leaves 0 and 1.
    unsafe {
        let (last, first) = (__cpuid(0).eax, __cpuid(1));
        let (sse3, ssse3, sse41, sse42) = (
            first.ecx & 1,
            first.ecx >> 9 & 1,
            first.ecx >> 19 & 1,
            first.ecx >> 20 & 1,
        );
        if sse3 & ssse3 & sse41 & sse42 == 0 {
            return ANY;
        }
        let (xsave, avx) = (first.ecx >> 27 & 1, first.ecx >> 28 & 1);
        // the system says by OSXSAVE that it keeps registers, and by bits 1 and 2 that those of SSE and AVX are among them
        if last < 7 || xsave & avx == 0 || kept() & 6 != 6 {
            return SSE42;
        }
        let seventh = __cpuid_count(7, 0);
        let (bmi1, avx2, bmi2) = (
            seventh.ebx >> 3 & 1,
            seventh.ebx >> 5 & 1,
            seventh.ebx >> 8 & 1,
        );
        if bmi1 & avx2 & bmi2 == 0 {
            return SSE42;
        }
        let (fma, f16c) = (first.ecx >> 12 & 1, first.ecx >> 29 & 1);
        let (avx512f, avx512vl) = (seventh.ebx >> 16 & 1, seventh.ebx >> 31);
        // bits 5 to 7 are for the masks and for what AVX-512 adds to the registers of AVX
        if fma & f16c & avx512f & avx512vl == 0 || kept() & 0xe0 != 0xe0 {
            return AVX2;
        }
        let avx512vbmi2 = seventh.ecx >> 6 & 1;
        if avx512vbmi2 == 1 { WIDE } else { AVX512 }
    }
}

#[cfg(all(test, target_arch = "x86_64"))]
mod tests {
    extern crate std;

    use super::{ANY, AVX2, AVX512, KNOWN, Ordering, SSE42, WIDE, found, has};
    use crate::proved::fips204_shake::{Input, MlDsa65};

    /// A pair and a signature, which the public key accepts.
    fn made() -> ([u8; 1952], [u8; 4032], [u8; 3309]) {
        let (mut public, mut private, mut signature) = ([0; 1952], [0; 4032], [0; 3309]);
        MlDsa65::keygen(&[7; 32], &mut public, &mut private).unwrap();
        let input = Input::Message(b"a message", b"");
        MlDsa65::sign(&private, &[9; 32], &input, &mut signature).unwrap();
        (public, private, signature)
    }

    /// A level is found as std finds it; and at each one below, the same is made.
    #[test]
    fn either_way() {
        let has_sse42 = std::is_x86_feature_detected!("sse3")
            && std::is_x86_feature_detected!("ssse3")
            && std::is_x86_feature_detected!("sse4.1")
            && std::is_x86_feature_detected!("sse4.2");
        let has_all = std::is_x86_feature_detected!("avx2")
            && std::is_x86_feature_detected!("bmi1")
            && std::is_x86_feature_detected!("bmi2");
        let has_avx512 = std::is_x86_feature_detected!("avx512f")
            && std::is_x86_feature_detected!("avx512vl")
            && std::is_x86_feature_detected!("fma")
            && std::is_x86_feature_detected!("f16c");
        let has_vbmi2 = std::is_x86_feature_detected!("avx512vbmi2");
        let highest = match (has_sse42, has_all, has_avx512, has_vbmi2) {
            (false, ..) => ANY,
            (true, false, ..) => SSE42,
            (true, true, false, _) => AVX2,
            (true, true, true, false) => AVX512,
            (true, true, true, true) => WIDE,
        };
        let all = [SSE42, AVX2, AVX512, WIDE];
        let of_level = |level| all.map(has) == all.map(|it| level >= it);
        assert!(of_level(highest));
        assert_eq!(found(), highest);
        let by_highest = made();
        for lower in ANY..highest {
            KNOWN.store(lower, Ordering::Relaxed);
            assert!(of_level(lower));
            assert!(made() == by_highest, "level {lower}");
        }
        KNOWN.store(0, Ordering::Relaxed);
        assert!(of_level(highest));
    }
}
