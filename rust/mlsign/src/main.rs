//! The program `mlsign`: keys and signatures of ML-DSA in files.
//!
//! `tools/erase` made `proved` of the source that is proved. What stands around it is written by hand and tested: this file,
//! `clap.rs`, and the package `rattle_std`.
#![forbid(unsafe_code)]

mod clap;
#[rustfmt::skip] // laid out as its source is
mod proved;

/// What each file of `proved` sees, in the place of Rattle's std and of the crates that it names.
mod standing {
    pub(crate) use crate::clap;
    pub use crate::proved::mlsign_engine;
    pub use corkaife::proved::{fips204, fips204_shake};
    pub use corkaife::{proved_for_tests::*, sha2_arrays as sha2};
    pub use rattle_std::prelude::*;
}

fn main() -> rattle_std::process::ExitCode {
    proved::mlsign_program::run(&standing::HostRuntime)
}
