//! What the programs and the tests of the repository take of Rattle's std and can't take of Rust's, by the names that it has
//! there: memory that is asked of an allocator and may be refused, a runtime that is passed on, and five crates of Rattle's.
//! It is written by hand and tested, not proved.
#![deny(unsafe_code)] // but in one place

pub mod alloc;
pub mod anyhow;
pub mod base64;
pub mod convert;
pub mod env;
pub mod fs;
pub mod hex;
pub mod io;
pub mod process;
pub mod rand_chacha;
pub mod rand_core;
pub mod random;
pub mod rt;
pub mod string;
pub mod test;
pub mod thread;
pub mod time;
pub mod vec;

/// What every file of Rattle sees beyond what every file of Rust does.
pub mod prelude {
    pub use crate::alloc::AllocGlobal;
    pub use crate::rt::{Eprint, HostRuntime};
    pub use crate::string::{Repeat, String};
    pub use crate::vec::{Collect, Vec};
    pub use crate::{anyhow, base64, hex, rand_chacha, rand_core};
    pub use crate::{try_format, try_println, try_vec};
}
