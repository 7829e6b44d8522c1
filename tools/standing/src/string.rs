//! For `String`: Rust's, of which each growth may be refused.

use crate::alloc::{AllocError, Global};
use std::{fmt, ops, string};

#[derive(Debug, PartialEq, Eq)]
pub struct String(string::String);

impl String {
    pub fn new(_: Global) -> String {
        String(string::String::new())
    }

    pub fn from_str(alloc: Global, text: &str) -> Result<String, AllocError> {
        let mut made = String::new(alloc);
        made.push_str(text)?;
        Ok(made)
    }

    /// The text of bytes, with a mark in the place of what is no text.
    pub fn from_utf8_lossy(alloc: Global, bytes: &[u8]) -> Result<String, AllocError> {
        let mut made = String::new(alloc);
        for chunk in bytes.utf8_chunks() {
            made.push_str(chunk.valid())?;
            made.push_str(if chunk.invalid().is_empty() {
                ""
            } else {
                "\u{fffd}"
            })?;
        }
        Ok(made)
    }

    pub fn push(&mut self, c: char) -> Result<(), AllocError> {
        self.push_str(c.encode_utf8(&mut [0; 4]))
    }

    pub fn push_str(&mut self, text: &str) -> Result<(), AllocError> {
        self.0.try_reserve(text.len()).map_err(|_| AllocError)?;
        self.0.push_str(text);
        Ok(())
    }

    pub fn as_str(&self) -> &str {
        &self.0
    }

    /// For `write!`.
    pub fn write_fmt(&mut self, args: fmt::Arguments<'_>) -> Result<(), AllocError> {
        fmt::Write::write_fmt(&mut Written(self), args).map_err(|_| AllocError)
    }
}

struct Written<'a>(&'a mut String);

impl fmt::Write for Written<'_> {
    fn write_str(&mut self, text: &str) -> fmt::Result {
        self.0.push_str(text).map_err(|_| fmt::Error)
    }
}

impl ops::Deref for String {
    type Target = str;

    fn deref(&self) -> &str {
        &self.0
    }
}

impl fmt::Display for String {
    fn fmt(&self, f: &mut fmt::Formatter<'_>) -> fmt::Result {
        f.write_str(self)
    }
}

/// For `format!(in alloc; ..)`.
#[macro_export]
macro_rules! try_format {
    ($alloc:expr; $($format:tt)*) => {{
        let mut text = $crate::string::String::new($alloc);
        text.write_fmt(::core::format_args!($($format)*)).map(|()| text)
    }};
}

/// For `repeat` of a text.
pub trait Repeat {
    fn try_repeat(&self, alloc: Global, count: usize) -> Result<String, AllocError>;
}

impl Repeat for str {
    fn try_repeat(&self, alloc: Global, count: usize) -> Result<String, AllocError> {
        let mut made = String::new(alloc);
        for _ in 0..count {
            made.push_str(self)?;
        }
        Ok(made)
    }
}

#[cfg(test)]
mod tests {
    use super::*;

    #[test]
    fn texts_are_those_of_rust() -> Result<(), AllocError> {
        assert_eq!(try_format!(Global; "{}-{:02x}", "a", 10)?.as_str(), "a-0a");
        assert_eq!("ab".try_repeat(Global, 3)?.as_str(), "ababab");
        assert_eq!("ab".try_repeat(Global, 0)?.as_str(), "");
        Ok(())
    }

    #[test]
    fn what_is_no_text_has_a_mark() -> Result<(), AllocError> {
        for bytes in [b"as it is".as_slice(), b"\xff", b"a\xe2\x82b\xc3", b""] {
            let wanted = string::String::from_utf8_lossy(bytes);
            assert_eq!(String::from_utf8_lossy(Global, bytes)?.as_str(), wanted);
        }
        Ok(())
    }

    /// What is shown fails as a growth does that is refused.
    struct Refused;

    impl fmt::Display for Refused {
        fn fmt(&self, _: &mut fmt::Formatter<'_>) -> fmt::Result {
            Err(fmt::Error)
        }
    }

    #[test]
    fn what_is_refused_is_an_error() {
        assert_eq!(try_format!(Global; "{Refused}"), Err(AllocError));
    }
}
