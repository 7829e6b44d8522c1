//! For `std::alloc`: the allocator, and what it says where it refuses.

use std::{error, fmt, io};

/// The allocator of the process.
#[derive(Clone, Copy, Debug, PartialEq, Eq)]
pub struct Global;

/// What has the allocator.
pub trait AllocGlobal {
    fn alloc(&self) -> Global {
        Global
    }
}

impl<T> AllocGlobal for (T, Global) {}

/// Memory was refused.
#[derive(Clone, Copy, Debug, PartialEq, Eq)]
pub struct AllocError;

/// Memory for this value was refused.
#[derive(PartialEq, Eq)]
pub struct AllocFailed<T> {
    pub value: T,
}

impl<T> From<AllocFailed<T>> for AllocError {
    fn from(_: AllocFailed<T>) -> AllocError {
        AllocError
    }
}

impl fmt::Display for AllocError {
    fn fmt(&self, f: &mut fmt::Formatter<'_>) -> fmt::Result {
        f.write_str("memory allocation failed")
    }
}

impl<T> fmt::Display for AllocFailed<T> {
    fn fmt(&self, f: &mut fmt::Formatter<'_>) -> fmt::Result {
        fmt::Display::fmt(&AllocError, f)
    }
}

impl<T> fmt::Debug for AllocFailed<T> {
    fn fmt(&self, f: &mut fmt::Formatter<'_>) -> fmt::Result {
        f.write_str("AllocFailed")
    }
}

impl error::Error for AllocError {}

impl<T> error::Error for AllocFailed<T> {}

impl From<AllocError> for io::Error {
    fn from(_: AllocError) -> io::Error {
        io::ErrorKind::OutOfMemory.into()
    }
}

impl<T> From<AllocFailed<T>> for io::Error {
    fn from(_: AllocFailed<T>) -> io::Error {
        AllocError.into()
    }
}
