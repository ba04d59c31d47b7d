//! Links libdipperlock.a from the directory that DIPPERLOCK_LIB names, or from target/c/lib, where tools/clib puts it.

use std::env;
use std::path::PathBuf;

fn main() {
    let own = || PathBuf::from(env::var_os("CARGO_MANIFEST_DIR").expect("cargo sets it")).join("../../target/c/lib");
    let directory = env::var_os("DIPPERLOCK_LIB").map_or_else(own, PathBuf::from);
    println!("cargo:rustc-link-search=native={}", directory.display());
    println!("cargo:rustc-link-lib=static=dipperlock");
    println!("cargo:rerun-if-env-changed=DIPPERLOCK_LIB");
    println!("cargo:rerun-if-changed={}", directory.join("libdipperlock.a").display());
}
