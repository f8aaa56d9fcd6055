//! Finds the repository's files and writes the module tree that compiles them where they lie.
//!
//! The folder is the one that OSTELUMIV_ORACLE names (from the root of this repository, where it is
//! no absolute path), else ../shared/docs/src beside this repository. Where a file is missing, the
//! crate is built without the oracle.

use std::env;
use std::fs;
use std::path::{Path, PathBuf};

const VARIABLE: &str = "OSTELUMIV_ORACLE";
const DEFAULT_FOLDER: &str = "../shared/docs/src";
/// Where the sources lie in the folder.
const SOURCES: &str = "crates/powerlink-rs/src";

const FILES: [&str; 6] = [
    "hal.rs",
    "types.rs",
    "sdo/sequence.rs",
    "sdo/command/base.rs",
    "sdo/client_connection.rs",
    "sdo/client_manager.rs",
];

/// The repository's module tree, as far as the client needs it. Its two object indices are private
/// to a file that names the whole stack, so they are given here.
const MODULES: &str = r#"
#[allow(warnings, clippy::all)]
#[path = "{sources}/hal.rs"]
pub mod hal;
#[allow(warnings, clippy::all)]
#[path = "{sources}/types.rs"]
pub mod types;
pub mod sdo {
    #[allow(warnings, clippy::all)]
    #[path = "{sources}/sdo/sequence.rs"]
    pub mod sequence;
    #[allow(warnings, clippy::all)]
    #[path = "{sources}/sdo/command/base.rs"]
    pub mod command;
    #[allow(warnings, clippy::all)]
    #[path = "{sources}/sdo/client_connection.rs"]
    pub mod client_connection;
    #[allow(warnings, clippy::all)]
    #[path = "{sources}/sdo/client_manager.rs"]
    pub mod client_manager;
    pub(crate) const OD_IDX_SDO_TIMEOUT: u16 = 0x1300;
    pub(crate) const OD_IDX_SDO_RETRIES: u16 = 0x1302;
}
"#;

fn variable(name: &str) -> PathBuf {
    PathBuf::from(env::var_os(name).unwrap_or_else(|| panic!("cargo sets {name}")))
}

fn write_modules(sources: &Path) {
    let escaped = sources.display().to_string().escape_default().to_string();
    let text = MODULES.replace("{sources}", &escaped);
    let file = variable("OUT_DIR").join("modules.rs");
    fs::write(&file, text).unwrap_or_else(|error| panic!("{}: {error}", file.display()));
}

fn main() {
    println!("cargo::rustc-check-cfg=cfg(has_oracle)");
    println!("cargo::rerun-if-changed=build.rs");
    println!("cargo::rerun-if-env-changed={VARIABLE}");
    let root = variable("CARGO_MANIFEST_DIR").join("../..");
    let folder = root.join(env::var_os(VARIABLE).unwrap_or_else(|| DEFAULT_FOLDER.into()));
    let sources = folder.join(SOURCES);
    let mut found = true;
    for file in FILES {
        let path = sources.join(file);
        println!("cargo::rerun-if-changed={}", path.display());
        found &= path.is_file();
    }
    if found {
        write_modules(&sources);
        println!("cargo::rustc-cfg=has_oracle");
        println!("cargo::metadata=available=1");
    } else {
        println!(
            "cargo::warning=no oracle: the repository's client is not in {}; {VARIABLE} names its folder",
            sources.display()
        );
    }
}
