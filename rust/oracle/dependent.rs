//! The build script of every crate that uses the oracle: it passes on, as the cfg `has_oracle`,
//! whether the repository's files were found.

fn main() {
    println!("cargo::rustc-check-cfg=cfg(has_oracle)");
    // Cargo hands this on from the oracle's own build script.
    if std::env::var_os("DEP_ORACLE_AVAILABLE").is_some() {
        println!("cargo::rustc-cfg=has_oracle");
    }
}
