//! Links the static library of the C functions, libostelumiv.a.
//!
//! Its folder is the one that OSTELUMIV_LIB names (from the root of this repository, where it is no
//! absolute path), else target/staticlib at that root. It is for x86-64, and must be one of this
//! repository: its answers are not checked (src/ffi.rs).

use std::env;
use std::path::PathBuf;

const VARIABLE: &str = "OSTELUMIV_LIB";
const DEFAULT_FOLDER: &str = "target/staticlib";

fn main() {
    println!("cargo::rerun-if-changed=build.rs");
    println!("cargo::rerun-if-env-changed={VARIABLE}");
    let here = env::var_os("CARGO_MANIFEST_DIR").expect("cargo sets CARGO_MANIFEST_DIR");
    let root = PathBuf::from(here).join("../..");
    let folder = root.join(env::var_os(VARIABLE).unwrap_or_else(|| DEFAULT_FOLDER.into()));
    let library = folder.join("libostelumiv.a");
    println!("cargo::rerun-if-changed={}", library.display());
    if !library.is_file() {
        println!(
            "cargo::warning={} is not there: make it first, or name its folder in {VARIABLE}",
            library.display()
        );
    }
    if env::var("CARGO_CFG_TARGET_ARCH").as_deref() != Ok("x86_64") {
        println!("cargo::warning=the library is for x86-64, and this build is not");
    }
    println!("cargo::rustc-link-search=native={}", folder.display());
    println!("cargo::rustc-link-lib=static=ostelumiv");
}
