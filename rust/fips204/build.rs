//! Tells `src/levels.rs` whether this rustc compiles for AVX-512: since version 1.89.

use std::env::var_os;
use std::process::Command;

fn main() {
    println!("cargo::rerun-if-changed=build.rs");
    println!("cargo::rustc-check-cfg=cfg(avx512_is_stable)");
    if minor_version().is_some_and(|it| it >= 89) {
        println!("cargo::rustc-cfg=avx512_is_stable");
    }
}

/// The second number of the version of rustc, if that is `1.MINOR` and so on.
fn minor_version() -> Option<u32> {
    let told = Command::new(var_os("RUSTC")?)
        .arg("--version")
        .output()
        .ok()?;
    let version = String::from_utf8(told.stdout).ok()?;
    let (minor, _) = version.strip_prefix("rustc 1.")?.split_once('.')?;
    minor.parse().ok()
}
