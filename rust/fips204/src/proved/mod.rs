//! The library as it is proved: `tools/erase` made these modules of the crates of the same names.
// What only the programs, the tests or a contract use is no fault of what is made.
#![allow(dead_code, unused_imports, unused_variables)]
#![allow(missing_docs, missing_debug_implementations)] // a key shows nothing of itself
#![allow(rustdoc::broken_intra_doc_links)] // Keccak-f[1600] is no link
#![allow(clippy::style, clippy::complexity)] // the style is that of the source; what is wrong or slow counts here too
#![allow(clippy::missing_errors_doc, clippy::missing_panics_doc)] // comments say 'Errors:'; no call panics

pub mod fips204;
pub mod fips204_base;
pub mod fips204_shake;
pub mod mldsa_c;
pub mod shake;
