//! For `Vec`: Rust's, of which each growth may be refused.

use crate::alloc::{AllocError, AllocFailed, Global};
use std::{ops, slice, vec};

#[derive(Debug, PartialEq, Eq)]
pub struct Vec<T>(vec::Vec<T>);

impl<T> Vec<T> {
    pub fn new(_: Global) -> Vec<T> {
        Vec(vec::Vec::new())
    }

    fn reserve(&mut self, count: usize) -> Result<(), AllocError> {
        self.0.try_reserve(count).map_err(|_| AllocError)
    }

    pub fn push(&mut self, value: T) -> Result<(), AllocFailed<T>> {
        if self.reserve(1).is_err() {
            return Err(AllocFailed { value });
        }
        self.0.push(value);
        Ok(())
    }

    pub fn as_slice(&self) -> &[T] {
        &self.0
    }

    pub fn as_mut_slice(&mut self) -> &mut [T] {
        &mut self.0
    }
}

impl<T: Clone> Vec<T> {
    pub fn extend_from_slice(&mut self, items: &[T]) -> Result<(), AllocError> {
        self.reserve(items.len())?;
        self.0.extend_from_slice(items);
        Ok(())
    }

    pub fn from_slice(alloc: Global, items: &[T]) -> Result<Vec<T>, AllocError> {
        let mut made = Vec::new(alloc);
        made.extend_from_slice(items)?;
        Ok(made)
    }

    /// So many times the value.
    pub fn filled(alloc: Global, value: T, count: usize) -> Result<Vec<T>, AllocError> {
        let mut made = Vec::new(alloc);
        made.reserve(count)?;
        made.0.resize(count, value);
        Ok(made)
    }
}

// (to a `Vec` of Rust, so that it can be read to the end of a file)
impl<T> ops::Deref for Vec<T> {
    type Target = vec::Vec<T>;

    fn deref(&self) -> &vec::Vec<T> {
        &self.0
    }
}

impl<T> ops::DerefMut for Vec<T> {
    fn deref_mut(&mut self) -> &mut vec::Vec<T> {
        &mut self.0
    }
}

impl<T> IntoIterator for Vec<T> {
    type Item = T;
    type IntoIter = vec::IntoIter<T>;

    fn into_iter(self) -> vec::IntoIter<T> {
        self.0.into_iter()
    }
}

impl<'a, T> IntoIterator for &'a Vec<T> {
    type Item = &'a T;
    type IntoIter = slice::Iter<'a, T>;

    fn into_iter(self) -> slice::Iter<'a, T> {
        self.0.iter()
    }
}

/// For `vec![in alloc; value; count]`.
#[macro_export]
macro_rules! try_vec {
    [$alloc:expr; $value:expr; $count:expr] => {
        $crate::vec::Vec::filled($alloc, $value, $count)
    };
}

/// For `collect` into a `Vec`.
pub trait Collect: Iterator + Sized {
    fn collect_in(self, alloc: Global) -> Result<Vec<Self::Item>, AllocError> {
        let mut made = Vec::new(alloc);
        for item in self {
            made.push(item)?;
        }
        Ok(made)
    }
}

impl<I: Iterator> Collect for I {}

#[cfg(test)]
mod tests {
    use super::*;

    /// More bytes than a `Vec` may have.
    const TOO_MANY: usize = usize::MAX;

    #[test]
    fn grows_as_the_vec_of_rust() -> Result<(), AllocError> {
        let mut made = Vec::from_slice(Global, &[1, 2])?;
        made.push(3)?;
        made.extend_from_slice(&[4, 5])?;
        made.as_mut_slice()[0] = 9;
        assert_eq!(made.as_slice(), [9, 2, 3, 4, 5]);
        assert_eq!(try_vec![Global; 7; 3]?.as_slice(), [7; 3]);
        assert_eq!(
            (0..3).collect_in(Global)?,
            Vec::from_slice(Global, &[0, 1, 2])?
        );
        Ok(())
    }

    #[test]
    fn what_is_refused_is_an_error_and_changes_nothing() -> Result<(), AllocError> {
        let mut made = Vec::from_slice(Global, &[1u8])?;
        assert_eq!(made.reserve(TOO_MANY), Err(AllocError));
        assert_eq!(made.as_slice(), [1]);
        assert_eq!(Vec::filled(Global, 0u16, TOO_MANY), Err(AllocError));
        Ok(())
    }
}
