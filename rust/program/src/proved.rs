//! Our proved programs, as the comparisons run them: where they are, and what they print.

use std::env;
use std::path::{Path, PathBuf};
use std::process::Command;

const VARIABLE: &str = "OSTELUMIV_BIN";
const DEFAULT_FOLDER: &str = "../../target/run";

/// A program that is there.
pub struct Program {
    pub name: &'static str,
    path: PathBuf,
}

impl Program {
    /// Looks in the folder that OSTELUMIV_BIN names, else in target/run at the root of this
    /// repository. An error says that it is not there.
    pub fn find(name: &'static str) -> Result<Self, String> {
        let default = Path::new(env!("CARGO_MANIFEST_DIR")).join(DEFAULT_FOLDER);
        let folder = env::var_os(VARIABLE).map_or(default, PathBuf::from);
        let path = folder.join(name);
        if path.is_file() {
            return Ok(Self { name, path });
        }
        Err(format!(
            "{name} is not in {}; make it first, or name its folder in {VARIABLE}",
            folder.display()
        ))
    }

    /// What the program prints to an input.
    pub fn output(&self, input: &[u8]) -> Result<Vec<u8>, String> {
        let output = crate::run(&mut Command::new(&self.path), input)
            .map_err(|error| format!("{}: {error}", self.path.display()))?;
        if !output.status.success() {
            return Err(format!("{}: {}", self.path.display(), output.status));
        }
        Ok(output.stdout)
    }
}
