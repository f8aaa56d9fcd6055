//! The benchmark: how many instructions a call takes, the proved codec through its wrapper against
//! the repository's Rust. No clock is read: the program runs itself under valgrind's callgrind, which
//! counts every instruction of a call, memcpy and malloc included, and prints a table.

use std::env;
use std::process::ExitCode;

#[cfg(has_oracle)]
mod callgrind;
#[cfg(has_oracle)]
mod cases;
#[cfg(has_oracle)]
mod table;

/// The argument with which the program only runs the cases, for callgrind to count.
const DRIVE: &str = "--drive";

fn main() -> ExitCode {
    let arguments: Vec<_> = env::args_os().skip(1).collect();
    let answer = match arguments.as_slice() {
        [] => measure(),
        [only] if only == DRIVE => drive(),
        _ => Err(format!("usage: bench [{DRIVE}]")),
    };
    if let Err(message) = answer {
        eprintln!("bench: {message}");
        return ExitCode::FAILURE;
    }
    ExitCode::SUCCESS
}

#[cfg(has_oracle)]
fn drive() -> Result<(), String> {
    cases::drive();
    Ok(())
}

#[cfg(has_oracle)]
fn measure() -> Result<(), String> {
    let costs = callgrind::costs(DRIVE)?;
    print!("{}", table::text(&costs)?);
    Ok(())
}

#[cfg(not(has_oracle))]
fn drive() -> Result<(), String> {
    measure()
}

#[cfg(not(has_oracle))]
fn measure() -> Result<(), String> {
    Err("not run: the repository's client was not found; OSTELUMIV_ORACLE names its folder".into())
}
