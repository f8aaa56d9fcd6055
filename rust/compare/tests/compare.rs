//! Runs the whole comparison; src/lib.rs says what it is.

use std::process::ExitCode;

fn main() -> ExitCode {
    compare::run()
}
