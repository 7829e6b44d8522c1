// Made by tools/erase of crates/shake/src/lib.rt. Change that, not this.
//! SHAKE128 and SHAKE256, the extendable-output functions of FIPS 202.

mod blocks;
mod four;
mod permutation;
mod sponge;

pub use four::f1600_four;
pub use permutation::f1600;
pub use sponge::{Shake, Shake128, Shake128Reader, Shake256, Shake256Reader, ShakeReader};
