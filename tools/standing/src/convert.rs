//! For `std::convert`: what is a text.

pub trait AsStr {
    fn as_str(&self) -> &str;
}

impl AsStr for &str {
    fn as_str(&self) -> &str {
        self
    }
}

impl AsStr for crate::string::String {
    fn as_str(&self) -> &str {
        self
    }
}
