//! Tells the program how it was compiled, so that its output can say so.

use std::env;
use std::process::Command;

fn main() {
    let compiler = env::var("RUSTC").unwrap_or_else(|_| "rustc".into());
    let version = Command::new(compiler).arg("--version").output();
    let version = version.map_or("rustc of unknown version".into(), |told| {
        String::from_utf8_lossy(&told.stdout).trim().to_string()
    });
    let told = |name| env::var(name).unwrap_or_default();
    println!("cargo:rustc-env=BUILT_WITH={version}");
    println!("cargo:rustc-env=BUILT_FOR={}", told("TARGET"));
    println!("cargo:rustc-env=BUILT_LEVEL={}", told("OPT_LEVEL"));
    let flags = told("CARGO_ENCODED_RUSTFLAGS").replace('\u{1f}', " ");
    println!("cargo:rustc-env=BUILT_FLAGS={flags}");
    println!("cargo:rerun-if-changed=build.rs");
}
