//! Links the proved library, `libcapi.a`, which `rt lib` makes in `crates/capi/out`.
//! The variable SULMEDRA_LIB_DIR names another folder to take it from.
//!
//! The variable SULMEDRA_BEFORE_DIR names a folder with `libbefore.a`, an earlier library, which the benchmark then times
//! beside this one. The two must not share a name: all names of the earlier one are hidden but those of the three
//! functions that are timed, which get others. What it takes from the C library keeps its name. From an earlier
//! `libcapi.a`:
//!
//!     objcopy --redefine-sym sulmedra_trim=before_sulmedra_trim --keep-global-symbol=before_sulmedra_trim \
//!         --redefine-sym sulmedra_carry_out=before_sulmedra_carry_out --keep-global-symbol=before_sulmedra_carry_out \
//!         --redefine-sym sulmedra_move_at=before_sulmedra_move_at --keep-global-symbol=before_sulmedra_move_at \
//!         libcapi.a libbefore.a
//!
//! It must be a library from before request 2.4, whose `sulmedra_carry_out` replies number and place alone: a later one
//! replies through other registers, and what the benchmark then reads means nothing.

use std::env;
use std::path::{Path, PathBuf};

fn main() {
    println!("cargo:rerun-if-changed=build.rs");
    println!("cargo:rerun-if-env-changed=SULMEDRA_LIB_DIR");
    println!("cargo:rerun-if-env-changed=SULMEDRA_BEFORE_DIR");
    println!("cargo:rustc-check-cfg=cfg(before)");
    link(&library_folder(), "capi", "run `rt lib` in crates/capi first");
    if let Some(folder) = env::var_os("SULMEDRA_BEFORE_DIR") {
        link(Path::new(&folder), "before", "build.rs says how it is made");
        println!("cargo:rustc-cfg=before");
    }
}

fn link(folder: &Path, name: &str, hint: &str) {
    let archive = folder.join(format!("lib{name}.a"));
    println!("cargo:rerun-if-changed={}", archive.display());
    if !archive.is_file() {
        panic!("{} is missing: {hint}", archive.display());
    }
    println!("cargo:rustc-link-search=native={}", folder.display());
    println!("cargo:rustc-link-lib=static={name}");
}

fn library_folder() -> PathBuf {
    if let Some(folder) = env::var_os("SULMEDRA_LIB_DIR") {
        return PathBuf::from(folder);
    }
    let package = env::var_os("CARGO_MANIFEST_DIR").expect("cargo names the package's folder");
    PathBuf::from(package).join("..").join("crates").join("capi").join("out")
}
