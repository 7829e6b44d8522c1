//! `corkaife-fips204` under the name and version of the crate fips204 0.5.0. Write this into the `Cargo.toml` of your workspace,
//! and every crate of it that asks crates.io for `fips204` 0.5 gets the code that is made of proved source:
//!
//! ~~~toml
//! [patch.crates-io]
//! fips204 = { path = "PATH/rust/patch" }
//! ~~~
#![no_std]
pub use proved::*;
