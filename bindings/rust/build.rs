//! Finds the static library: in the folder that TUSSOCKBELL_LIB_DIR names, else in build/ of the checkout.
//!
//! Where it is not there, that is a warning: `cargo doc` and `cargo check` need none. What has to be linked then fails,
//! since the library is asked for in any case, and cargo says the warning beside the linker's error.

use std::{env, path::PathBuf};

const VARIABLE: &str = "TUSSOCKBELL_LIB_DIR";
const ARCHIVE: &str = "libtussockbell.a";

fn main() {
    println!("cargo:rerun-if-env-changed={VARIABLE}");
    let here = PathBuf::from(env::var_os("CARGO_MANIFEST_DIR").expect("cargo sets CARGO_MANIFEST_DIR"));
    let named = env::var_os(VARIABLE).map_or_else(|| here.join("../../build"), PathBuf::from);
    let folder = named.canonicalize().unwrap_or(named);
    let archive = folder.join(ARCHIVE);
    if !archive.is_file() {
        println!("cargo:warning=There is no {ARCHIVE} in {}: nothing can be linked.", folder.display());
        println!("cargo:warning=Run `make lib` in the checkout, or set {VARIABLE} to the absolute path of its folder.");
    }
    println!("cargo:rerun-if-changed={}", archive.display());
    println!("cargo:rustc-link-search=native={}", folder.display());
    println!("cargo:rustc-link-lib=static=tussockbell");
}
