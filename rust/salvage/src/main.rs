//! The repository's walk of a DCF as a salvage, and our program salvages against it. USAGE has the modes.

use program::usage::Usage;
use std::io;
use std::process::ExitCode;

const USAGE: Usage = Usage {
    program: "salvage_oracle",
    text: "\
usage: salvage_oracle MODE
  one                   a DCF on standard input, repaired on standard output, and its line on standard
                        error: old count, new count, bytes dropped, offset of the first; or the
                        number that refuses it
  many                  DCFs on standard input, each behind its length in two bytes; of each the line,
                        and behind it the repaired DCF, on standard output
  compare COUNT [SEED]  our salvages on at least so many drawn DCFs, from a seed on, each line and each
                        byte against the repository's
  sample CRATES         writes the sample of DCFs and answers that runs without Rust
exit status: 0 all is well, a DCF that is refused too; 1 it is not",
};

fn main() -> ExitCode {
    USAGE.run(run)
}

/// Answers whether all is well.
#[cfg(has_oracle)]
fn run(arguments: &[&str]) -> io::Result<bool> {
    use salvage_oracle::{batch, compare, repair::repair, sample};
    use std::io::Write;
    use std::path::Path;

    let mut output = io::stdout().lock();
    match arguments {
        ["compare", count] => return run(&["compare", count, "0"]),
        ["compare", count, seed] => {
            return compare::run(USAGE.number(count)?, USAGE.number(seed)?, &mut output)
        }
        ["one"] => {
            let answer = repair(&program::input()?);
            output.write_all(answer.bytes())?;
            io::stderr().write_all(answer.line().as_bytes())?;
        }
        ["many"] => {
            let input = program::input()?;
            for dcf in batch::dcfs(&input).map_err(io::Error::other)? {
                output.write_all(&repair(dcf).printed())?;
            }
        }
        ["sample", crates] => {
            let told = sample::write(Path::new(crates)).map_err(io::Error::other)?;
            output.write_all(told.as_bytes())?;
        }
        _ => return Err(USAGE.called_wrongly(arguments)),
    }
    output.flush()?;
    Ok(true)
}

#[cfg(not(has_oracle))]
fn run(_: &[&str]) -> io::Result<bool> {
    Err(USAGE.no_oracle())
}
