//! The proved codec, through its Rust wrapper, against the repository's Rust: the same inputs go to
//! both, and every answer and every byte of every buffer is compared.
//!
//! One difference is intended: the repository's `serialize` may write a header before it refuses,
//! and ours then writes nothing. It is counted, and ours is held to the untouched buffer.

use std::process::ExitCode;

#[cfg(has_oracle)]
mod answers;
#[cfg(has_oracle)]
mod command_numbers;
#[cfg(has_oracle)]
mod command_read;
#[cfg(has_oracle)]
mod command_write;
#[cfg(has_oracle)]
mod dcf;
#[cfg(has_oracle)]
mod layout;
#[cfg(has_oracle)]
mod request;
#[cfg(has_oracle)]
mod sequence;
#[cfg(has_oracle)]
mod tally;

/// Compares everything and prints how many inputs each group had. It fails where anything differs.
#[cfg(has_oracle)]
pub fn run() -> ExitCode {
    let mut report = tally::Report::default();
    sequence::compare(&mut report);
    command_numbers::compare(&mut report);
    command_read::compare(&mut report);
    command_write::compare(&mut report);
    request::compare(&mut report);
    dcf::compare(&mut report);
    report.finish()
}

/// Says that nothing was compared, which is a failure where the environment has CI=true.
#[cfg(not(has_oracle))]
pub fn run() -> ExitCode {
    println!("NOT COMPARED: the repository's client was not found, so there is no oracle.");
    println!("OSTELUMIV_ORACLE names the folder that it is in.");
    if std::env::var_os("CI").is_some_and(|value| value == "true") {
        println!("With CI=true that is a failure.");
        return ExitCode::FAILURE;
    }
    ExitCode::SUCCESS
}
