//! The types of `simd.rs` over the vectors of WebAssembly, with what the crate uses of them. Of arrays the compiler makes products
//! of lanes of 64 bits, which take a processor many more instructions than those of lanes of 32 bits.
// (the names are those of `std::simd`)
#![allow(non_camel_case_types)]
#![allow(unsafe_code)]

use core::arch::wasm32 as vectors;
use core::arch::wasm32::{
    i32x4_add, i32x4_eq, i32x4_mul, i32x4_shr, i32x4_shuffle, i32x4_splat, i32x4_sub,
    i64x2_extmul_high_i32x4, i64x2_extmul_low_i32x4, i64x2_splat, i64x2_sub, u8x16_splat,
    u32x4_splat, v128, v128_bitselect, v128_or,
};
use core::mem::transmute;
use core::ops::{Add, Mul, Rem, Shl, Shr, Sub};

/// Lanes that `cast` makes of others, as `as` makes each.
pub(crate) trait CastTo<T> {
    type Output;

    fn cast_to(self) -> Self::Output;
}

/// The lanes of two vectors in turns.
#[inline(always)]
fn in_turns([even, odd]: [v128; 2]) -> [v128; 2] {
    let first = i32x4_shuffle::<0, 4, 1, 5>(even, odd);
    [first, i32x4_shuffle::<2, 6, 3, 7>(even, odd)]
}

/// The lanes that `in_turns` takes.
#[inline(always)]
fn apart([first, last]: [v128; 2]) -> [v128; 2] {
    let even = i32x4_shuffle::<0, 2, 4, 6>(first, last);
    [even, i32x4_shuffle::<1, 3, 5, 7>(first, last)]
}

/// Eight lanes: in one vector those at even places, in the other those at odd ones. So both halves of wider lanes are vectors.
#[derive(Clone, Copy)]
pub(crate) struct i32x8([v128; 2]);

impl i32x8 {
    #[inline(always)]
    pub(crate) fn from_array(lanes: [i32; 8]) -> i32x8 {
        // SAFETY: both are 32 bytes of any bits.
        i32x8(apart(unsafe { transmute::<[i32; 8], [v128; 2]>(lanes) }))
    }

    #[inline(always)]
    pub(crate) fn to_array(self) -> [i32; 8] {
        // SAFETY: both are 32 bytes of any bits.
        unsafe { transmute::<[v128; 2], [i32; 8]>(in_turns(self.0)) }
    }

    #[inline(always)]
    pub(crate) fn splat(lane: i32) -> i32x8 {
        i32x8([i32x4_splat(lane); 2])
    }

    /// The lanes at these places among those of both.
    #[inline(always)]
    pub(crate) fn shuffle(self, other: i32x8, places: [usize; 8]) -> i32x8 {
        let (own, other) = (self.to_array(), other.to_array());
        let lane = |p: usize| if p < 8 { own[p] } else { other[p - 8] };
        let [a, b, c, d, e, f, g, h] = places;
        i32x8([
            vectors::i32x4(lane(a), lane(c), lane(e), lane(g)),
            vectors::i32x4(lane(b), lane(d), lane(f), lane(h)),
        ])
    }

    #[inline(always)]
    fn each(self, other: i32x8, f: impl Fn(v128, v128) -> v128) -> i32x8 {
        i32x8([f(self.0[0], other.0[0]), f(self.0[1], other.0[1])])
    }

    /// A sum of lanes of which none wraps: who calls it sees to that.
    #[inline(always)]
    pub(crate) fn strict_add(self, other: i32x8) -> i32x8 {
        self + other
    }

    /// A difference of lanes of which none wraps, as in `strict_add`.
    #[inline(always)]
    pub(crate) fn strict_sub(self, other: i32x8) -> i32x8 {
        self - other
    }

    /// Whether the lanes are equal.
    #[inline(always)]
    pub(crate) fn simd_eq(self, other: i32x8) -> mask32x8 {
        mask32x8(self.each(other, |x, y| i32x4_eq(x, y)))
    }

    /// The lanes as halves of wider ones: the low halves, and the high ones.
    #[inline(always)]
    pub(crate) fn to_le_bytes(self) -> [v128; 2] {
        self.0
    }

    /// The lanes of these halves of wider ones.
    #[inline(always)]
    pub(crate) fn from_le_bytes(halves: [v128; 2]) -> i32x8 {
        i32x8(halves)
    }
}

impl Add for i32x8 {
    type Output = i32x8;

    #[inline(always)]
    fn add(self, other: i32x8) -> i32x8 {
        self.each(other, |x, y| i32x4_add(x, y))
    }
}

impl Sub for i32x8 {
    type Output = i32x8;

    #[inline(always)]
    fn sub(self, other: i32x8) -> i32x8 {
        self.each(other, |x, y| i32x4_sub(x, y))
    }
}

impl Mul for i32x8 {
    type Output = i32x8;

    #[inline(always)]
    fn mul(self, other: i32x8) -> i32x8 {
        self.each(other, |x, y| i32x4_mul(x, y))
    }
}

impl Shr for i32x8 {
    type Output = i32x8;

    #[inline(always)]
    fn shr(self, other: i32x8) -> i32x8 {
        let bits = other.to_array();
        let alike = bits.iter().all(|it| *it == bits[0]);
        assert!(alike, "the crate shifts all lanes alike");
        i32x8(self.0.map(|x| i32x4_shr(x, bits[0].cast_unsigned())))
    }
}

/// Four lanes: their low halves, their high ones, and whole. What nobody asks for is not computed.
#[derive(Clone, Copy)]
pub(crate) struct i64x4 {
    low: v128,
    high: v128,
    whole: [v128; 2],
    // whether each lane is known to be a number of 32 bits
    is_narrow: bool,
    // the number of each lane, where it is known to be the same
    splat: Option<i64>,
}

impl i64x4 {
    #[inline(always)]
    fn of_whole(whole: [v128; 2]) -> i64x4 {
        let [low, high] = apart(whole);
        i64x4 {
            low,
            high,
            whole,
            is_narrow: false,
            splat: None,
        }
    }

    #[inline(always)]
    fn of_halves(low: v128, high: v128) -> i64x4 {
        i64x4 {
            low,
            high,
            whole: in_turns([low, high]),
            is_narrow: false,
            splat: None,
        }
    }

    #[inline(always)]
    pub(crate) fn splat(lane: i64) -> i64x4 {
        i64x4 {
            is_narrow: i64::from(lane as i32) == lane,
            splat: Some(lane),
            ..i64x4::of_whole([i64x2_splat(lane); 2])
        }
    }

    /// The lanes that have these halves.
    #[inline(always)]
    pub(crate) fn from_le_bytes([low, high]: [v128; 2]) -> i64x4 {
        i64x4::of_halves(low, high)
    }

    /// The halves of the lanes.
    #[inline(always)]
    pub(crate) fn to_le_bytes(self) -> [v128; 2] {
        [self.low, self.high]
    }
}

impl Sub for i64x4 {
    type Output = i64x4;

    #[inline(always)]
    fn sub(self, other: i64x4) -> i64x4 {
        let ([a, b], [c, d]) = (self.whole, other.whole);
        i64x4::of_whole([i64x2_sub(a, c), i64x2_sub(b, d)])
    }
}

impl Mul for i64x4 {
    type Output = i64x4;

    #[inline(always)]
    fn mul(self, other: i64x4) -> i64x4 {
        assert!(
            self.is_narrow && other.is_narrow,
            "the crate multiplies numbers of 32 bits"
        );
        let factor = kept_narrow(other.low);
        let whole = [
            i64x2_extmul_low_i32x4(self.low, factor),
            i64x2_extmul_high_i32x4(self.low, factor),
        ];
        i64x4 {
            low: i32x4_mul(self.low, other.low),
            ..i64x4::of_whole(whole)
        }
    }
}

/// The same lanes, of which the compiler does not know that they are. Otherwise it widens lanes that a loop keeps ahead of the loop,
/// and then no instruction widens and multiplies.
#[inline(always)]
fn kept_narrow(lanes: v128) -> v128 {
    static ZEROS: v128 = vectors::i32x4(0, 0, 0, 0);
    // SAFETY: it reads what is there.
    v128_or(lanes, unsafe { core::ptr::read_volatile(&ZEROS) })
}

impl Shl for i64x4 {
    type Output = i64x4;

    #[inline(always)]
    fn shl(self, other: i64x4) -> i64x4 {
        assert!(other.splat == Some(32), "the crate shifts by 32 bits");
        i64x4::of_halves(i32x4_splat(0), self.low)
    }
}

impl Shr for i64x4 {
    type Output = i64x4;

    #[inline(always)]
    fn shr(self, other: i64x4) -> i64x4 {
        assert!(other.splat == Some(32), "the crate shifts by 32 bits");
        i64x4 {
            is_narrow: true,
            ..i64x4::of_halves(self.high, i32x4_shr(self.high, 31))
        }
    }
}

/// Sixteen lanes of a byte.
#[derive(Clone, Copy)]
pub(crate) struct u8x16(v128);

impl u8x16 {
    #[inline(always)]
    pub(crate) fn splat(lane: u8) -> u8x16 {
        u8x16(u8x16_splat(lane))
    }

    /// The lanes of 16 bytes.
    #[inline(always)]
    pub(crate) fn from_slice(bytes: &[u8]) -> u8x16 {
        let lanes = *bytes.first_chunk::<16>().unwrap();
        // SAFETY: both are 16 bytes of any bits.
        u8x16(unsafe { transmute::<[u8; 16], v128>(lanes) })
    }

    /// The lanes at these places among those of both.
    #[inline(always)]
    pub(crate) fn shuffle(self, other: u8x16, places: [usize; 16]) -> u8x16 {
        // SAFETY: both are 16 bytes of any bits.
        let [own, other] = [self, other].map(|it| unsafe { transmute::<v128, [u8; 16]>(it.0) });
        let lane = |i: usize| match places[i] {
            place if place < 16 => own[place],
            place => other[place - 16],
        };
        // (of an array by a function the compiler makes a call)
        u8x16(vectors::u8x16(
            lane(0),
            lane(1),
            lane(2),
            lane(3),
            lane(4),
            lane(5),
            lane(6),
            lane(7),
            lane(8),
            lane(9),
            lane(10),
            lane(11),
            lane(12),
            lane(13),
            lane(14),
            lane(15),
        ))
    }
}

/// Four lanes.
#[derive(Clone, Copy)]
pub(crate) struct u32x4(v128);

impl u32x4 {
    #[inline(always)]
    pub(crate) fn from_array(lanes: [u32; 4]) -> u32x4 {
        let [a, b, c, d] = lanes;
        u32x4(vectors::u32x4(a, b, c, d))
    }

    #[inline(always)]
    pub(crate) fn to_array(self) -> [u32; 4] {
        // SAFETY: both are 16 bytes of any bits.
        unsafe { transmute::<v128, [u32; 4]>(self.0) }
    }

    #[inline(always)]
    pub(crate) fn splat(lane: u32) -> u32x4 {
        u32x4(u32x4_splat(lane))
    }

    /// The lanes of these bytes, the low byte first.
    #[inline(always)]
    pub(crate) fn from_le_bytes(bytes: u8x16) -> u32x4 {
        u32x4(bytes.0)
    }

    #[inline(always)]
    pub(crate) fn cast<T>(self) -> <u32x4 as CastTo<T>>::Output
    where
        u32x4: CastTo<T>,
    {
        self.cast_to()
    }

    #[inline(always)]
    fn each(self, other: u32x4, f: impl Fn(u32, u32) -> u32) -> u32x4 {
        let ([a, b, c, d], [e, g, h, i]) = (self.to_array(), other.to_array());
        u32x4::from_array([f(a, e), f(b, g), f(c, h), f(d, i)])
    }
}

impl Rem for u32x4 {
    type Output = u32x4;

    #[inline(always)]
    fn rem(self, other: u32x4) -> u32x4 {
        self.each(other, |x, y| x % y)
    }
}

impl Shr for u32x4 {
    type Output = u32x4;

    #[inline(always)]
    fn shr(self, other: u32x4) -> u32x4 {
        self.each(other, |x, n| x >> (n & 31))
    }
}

/// Four lanes with a sign.
#[derive(Clone, Copy)]
pub(crate) struct i32x4(v128);

impl i32x4 {
    #[inline(always)]
    pub(crate) fn to_array(self) -> [i32; 4] {
        // SAFETY: both are 16 bytes of any bits.
        unsafe { transmute::<v128, [i32; 4]>(self.0) }
    }
}

impl CastTo<i32> for u32x4 {
    type Output = i32x4;

    #[inline(always)]
    fn cast_to(self) -> i32x4 {
        i32x4(self.0)
    }
}

/// A yes or a no for each of eight lanes.
#[derive(Clone, Copy)]
pub(crate) struct mask32x8(i32x8);

impl mask32x8 {
    /// The lanes of `yes` where the mask says so, and else those of `no`.
    #[inline(always)]
    pub(crate) fn select(self, yes: i32x8, no: i32x8) -> i32x8 {
        let ([a, b], [c, d], [m, n]) = (yes.0, no.0, self.0.0);
        i32x8([v128_bitselect(a, c, m), v128_bitselect(b, d, n)])
    }
}
