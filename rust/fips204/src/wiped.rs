//! Bytes that are overwritten when they are dropped, and that no call takes once they were.
#![allow(dead_code)] // no set may be chosen

use core::borrow::BorrowMut;

/// Where the bytes of a private key lie: with the feature `alloc` in a place of their own, so that they are not copied when the key
/// is moved.
#[cfg(feature = "alloc")]
type Place<const N: usize> = alloc::boxed::Box<[u8; N]>;
#[cfg(not(feature = "alloc"))]
type Place<const N: usize> = [u8; N];

/// A place of zeros. None is on the stack where the place is not.
#[cfg(feature = "alloc")]
fn place<const N: usize>() -> Place<N> {
    match alloc::vec![0; N].into_boxed_slice().try_into() {
        Ok(place) => place,
        Err(_) => unreachable!("it has N bytes"),
    }
}
#[cfg(not(feature = "alloc"))]
fn place<const N: usize>() -> Place<N> {
    [0; N]
}

/// Overwrites bytes with zeros. A compiler keeps that, though nothing reads them: `zeroize` writes them as volatile ones; and what
/// `black_box` is given may be read there, for all that the compiler knows.
pub(crate) fn wipe(bytes: &mut [u8]) {
    #[cfg(feature = "zeroize")]
    zeroize::Zeroize::zeroize(bytes);
    #[cfg(not(feature = "zeroize"))]
    {
        bytes.fill(0);
        core::hint::black_box(bytes);
        core::sync::atomic::compiler_fence(core::sync::atomic::Ordering::SeqCst);
    }
}

/// An array that is overwritten with zeros when it is dropped.
pub(crate) struct Wiped<const N: usize, P: BorrowMut<[u8; N]> = [u8; N]> {
    place: P,
    is_wiped: bool,
}

/// A `Wiped` that leaves no copy where it was when it is moved, with the feature `alloc`.
pub(crate) type Held<const N: usize> = Wiped<N, Place<N>>;

impl<const N: usize> Wiped<N> {
    /// An array of zeros.
    pub(crate) const fn zeros() -> Self {
        Wiped {
            place: [0; N],
            is_wiped: false,
        }
    }
}

/// An array of zeros, in a place of its own.
pub(crate) fn held<const N: usize>() -> Held<N> {
    Wiped {
        place: place(),
        is_wiped: false,
    }
}

impl<const N: usize, P: BorrowMut<[u8; N]>> Wiped<N, P> {
    /// The array.
    pub(crate) fn array(&self) -> &[u8; N] {
        self.place.borrow()
    }

    /// The array, to be written.
    pub(crate) fn array_mut(&mut self) -> &mut [u8; N] {
        self.place.borrow_mut()
    }

    /// What a call of the library is given to read: no bytes once they were wiped, which each call rejects.
    pub(crate) fn given(&self) -> &[u8] {
        if self.is_wiped { &[] } else { self.array() }
    }

    /// The first `count` of the bytes that a call is given.
    pub(crate) fn front(&self, count: usize) -> &[u8] {
        self.given().get(..count).unwrap_or(&[])
    }

    /// Overwrites the array with zeros.
    pub(crate) fn wipe(&mut self) {
        wipe(self.array_mut());
        self.is_wiped = true;
    }

    /// Writes the first bytes over another one, from place to place. What was wiped makes a copy that was wiped.
    pub(crate) fn copied_to<const M: usize, Q: BorrowMut<[u8; M]>>(
        &self,
        mut copy: Wiped<M, Q>,
    ) -> Wiped<M, Q> {
        copy.array_mut().copy_from_slice(&self.array()[..M]);
        copy.is_wiped = self.is_wiped;
        copy
    }
}

impl<const N: usize, P: BorrowMut<[u8; N]>> Drop for Wiped<N, P> {
    fn drop(&mut self) {
        self.wipe();
    }
}

#[cfg(feature = "alloc")]
impl<const N: usize> Clone for Held<N> {
    fn clone(&self) -> Self {
        self.copied_to(held())
    }
}

impl<const N: usize> Clone for Wiped<N> {
    fn clone(&self) -> Self {
        self.copied_to(Self::zeros())
    }
}

/// A vector that is overwritten with zeros when it is dropped. It may not grow, which would leave a copy of it behind.
#[cfg(feature = "alloc")]
pub(crate) struct WipedVec(pub(crate) alloc::vec::Vec<u8>);

#[cfg(feature = "alloc")]
impl Drop for WipedVec {
    fn drop(&mut self) {
        wipe(&mut self.0);
    }
}

/// For a type over a `Wiped`, which may be generic over lengths: `Debug`, which shows none of its bytes, and the traits of `zeroize`.
macro_rules! shows_nothing {
    ($name:ident $(<$($length:ident),+>)?) => {
        /// Shows none of the bytes.
        impl $(<$(const $length: usize),+>)? core::fmt::Debug for $name $(<$($length),+>)? {
            fn fmt(&self, f: &mut core::fmt::Formatter<'_>) -> core::fmt::Result {
                f.debug_struct(stringify!($name)).finish_non_exhaustive()
            }
        }

        /// Overwrites the bytes with zeros, which stand for no value of this type: from then on each call rejects it.
        #[cfg(feature = "zeroize")]
        impl $(<$(const $length: usize),+>)? zeroize::Zeroize for $name $(<$($length),+>)? {
            fn zeroize(&mut self) {
                self.0.wipe();
            }
        }

        #[cfg(feature = "zeroize")]
        impl $(<$(const $length: usize),+>)? zeroize::ZeroizeOnDrop for $name $(<$($length),+>)? {}
    };
}
pub(crate) use shows_nothing;

#[cfg(test)]
mod tests {
    use super::{Wiped, held};

    /// Where the array was there are zeros once it is dropped.
    #[test]
    fn dropping_overwrites() {
        let mut place = [7; 100];
        drop(Wiped {
            place: &mut place,
            is_wiped: false,
        });
        assert_eq!(place, [0; 100]);
    }

    /// No call is given what was wiped, nor a copy of it.
    #[test]
    fn wiped_is_given_to_no_call() {
        let mut value = held::<5>();
        value.array_mut().fill(7);
        assert_eq!((value.given(), value.front(2)), (&[7; 5][..], &[7; 2][..]));
        assert_eq!(value.copied_to(Wiped::<2>::zeros()).given(), &[7; 2]);
        value.wipe();
        assert_eq!(value.array(), &[0; 5]);
        for it in [&value, &value.clone()] {
            assert_eq!((it.given(), it.front(2)), (&[][..], &[][..]));
        }
        assert_eq!(value.copied_to(Wiped::<2>::zeros()).given(), &[]);
    }

    /// A value that is moved has its bytes where they were.
    #[cfg(feature = "alloc")]
    #[test]
    fn moving_copies_nothing() {
        let value = held::<5>();
        let place = value.array().as_ptr();
        let moved = std::boxed::Box::new(Some(value));
        assert_eq!(moved.map(|it| it.array().as_ptr()), Some(place));
    }
}
