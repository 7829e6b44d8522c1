//! For the crate `anyhow`: an error that is a text, which is shown with its causes. (That of crates.io wants texts that live for
//! ever, and a file's name does not.)

use std::fmt::{self, Display};

pub type Result<T, E = Error> = std::result::Result<T, E>;

/// The newest message, and behind it each cause.
#[derive(Debug)]
pub struct Error(String);

impl Error {
    pub fn msg<M: Display>(message: M) -> Error {
        Error(message.to_string())
    }

    /// The error with another message in front.
    pub fn context<C: Display>(self, context: C) -> Error {
        Error(format!("{context}: {self}"))
    }
}

impl<E: std::error::Error> From<E> for Error {
    fn from(error: E) -> Error {
        Error::msg(error)
    }
}

impl Display for Error {
    fn fmt(&self, f: &mut fmt::Formatter<'_>) -> fmt::Result {
        f.write_str(&self.0)
    }
}

/// Puts a message in front of an error, or in the place of nothing.
pub trait Context<T> {
    fn context<C: Display>(self, context: C) -> Result<T>;
}

impl<T, E: Into<Error>> Context<T> for Result<T, E> {
    fn context<C: Display>(self, context: C) -> Result<T> {
        self.map_err(|error| error.into().context(context))
    }
}

impl<T> Context<T> for Option<T> {
    fn context<C: Display>(self, context: C) -> Result<T> {
        self.ok_or_else(|| Error::msg(context))
    }
}

#[macro_export]
macro_rules! bail {
    ($($format:tt)*) => {
        return Err($crate::anyhow::Error::msg(::core::format_args!($($format)*)))
    };
}
pub use crate::bail;

#[cfg(test)]
mod tests {
    use super::*;

    fn fails(name: &str) -> Result<()> {
        bail!("{name} fails")
    }

    #[test]
    fn causes_stand_behind_messages() {
        let found = fails("this").context("that").unwrap_err();
        assert_eq!(found.to_string(), "that: this fails");
        let found: Result<()> = Err(fmt::Error).context("words");
        assert_eq!(
            found.unwrap_err().to_string(),
            format!("words: {}", fmt::Error)
        );
    }

    #[test]
    fn nothing_has_its_message_alone() -> Result<()> {
        assert_eq!(Some(1).context("it is missing")?, 1);
        let found = None::<u8>.context("it is missing").unwrap_err();
        assert_eq!(found.to_string(), "it is missing");
        Ok(())
    }
}
