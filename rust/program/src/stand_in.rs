//! Shell scripts in the place of programs, for the tests of what runs these.

use std::fs;
use std::os::unix::fs::PermissionsExt;
use std::path::Path;

/// Makes the folder, and in it a script for each name and command.
pub fn scripts(folder: &Path, scripts: &[(&str, &str)]) {
    fs::create_dir_all(folder).unwrap();
    for (script, command) in scripts {
        let path = folder.join(script);
        fs::write(&path, format!("#!/bin/sh\n{command}\n")).unwrap();
        fs::set_permissions(&path, fs::Permissions::from_mode(0o755)).unwrap();
    }
}
