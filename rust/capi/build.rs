//! How the shared library is linked on Linux: under the name that programs look for, and without code to start or to debug it; and
//! how much stack the module for WebAssembly has.

use std::env::var;

fn main() {
    println!("cargo::rerun-if-changed=build.rs");
    let version = |part: &str| var(format!("CARGO_PKG_VERSION_{part}")).unwrap();
    // Before 1.0 a minor version may change calls.
    let name = match version("MAJOR").as_str() {
        "0" => format!("libmldsa.so.0.{}", version("MINOR")),
        major => format!("libmldsa.so.{major}"),
    };
    if var("CARGO_CFG_TARGET_OS").unwrap() == "linux" {
        for word in [
            "-nostartfiles",
            "-Wl,-s",
            "-Wl,-z,defs",
            &format!("-Wl,-soname,{name}"),
        ] {
            println!("cargo::rustc-cdylib-link-arg={word}");
        }
    }
    if var("CARGO_CFG_TARGET_ARCH").unwrap() == "wasm32" {
        // (a call uses at most 154,800 of these bytes; the tests of js/ ask that an eighth stays free)
        println!("cargo::rustc-cdylib-link-arg=-zstack-size=196608");
    }
}
