//! Stands for the crate fips204 of crates.io.

/// What this crate is.
pub const NAME: &str = "original";
