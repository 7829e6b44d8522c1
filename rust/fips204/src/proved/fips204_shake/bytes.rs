// Made by tools/erase of crates/fips204_shake/src/bytes.rt. Change that, not this.
//! ML-DSA (FIPS 204) over bytes: the calls of `fips204` with keys and signatures as slices.
//!
//! Each call is there twice: of a parameter set that is known when the program is written, as `MlDsa65::<H, G>::sign`,
//! and of a set by its name, as `AnySet::<H, G>::sign(SetName::MlDsa65, ..)`.
//!
//! No call but `array_of` has a `requires`: a slice may have any length. A wrong one is `Refusal::Length`, which comes before every error of
//! the library; `SetName` tells the right ones. A slice that a call writes is as it was after every error.

mod any_set;
mod calls;
mod refusal;
mod slices;

pub use any_set::AnySet;
pub use calls::{MlDsa, MlDsa44, MlDsa65, MlDsa87};
pub use crate::proved::fips204::{Fault, Input, SetName};
pub use refusal::{Buffer, Refusal};
pub use slices::array_of;
