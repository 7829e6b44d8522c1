//! For `std::test`: why a test failed, which any error becomes.

use std::{error, fmt};

/// It is no error itself: else Rust could not tell one that becomes it from itself.
pub struct Fail(String);

impl Fail {
    pub fn new<D: fmt::Display>(why: D) -> Fail {
        Fail(why.to_string())
    }
}

impl fmt::Debug for Fail {
    fn fmt(&self, f: &mut fmt::Formatter<'_>) -> fmt::Result {
        f.write_str(&self.0)
    }
}

impl<E: error::Error> From<E> for Fail {
    fn from(error: E) -> Fail {
        Fail(format!("error: {error:?}"))
    }
}

/// Makes an error of a type that can be shown to programmers, which is enough for Rattle.
#[macro_export]
macro_rules! is_error {
    ($name:ident) => {
        impl ::std::fmt::Display for $name {
            fn fmt(&self, f: &mut ::std::fmt::Formatter<'_>) -> ::std::fmt::Result {
                ::std::fmt::Debug::fmt(self, f)
            }
        }

        impl ::std::error::Error for $name {}
    };
}

#[cfg(test)]
mod tests {
    use super::Fail;

    #[derive(Debug)]
    struct Fault;

    is_error!(Fault);

    #[test]
    fn says_why() {
        assert_eq!(format!("{:?}", Fail::new("words")), "words");
        assert_eq!(format!("{:?}", Fail::from(Fault)), "error: Fault");
    }
}
