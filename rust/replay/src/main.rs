//! The repository's manager as a replay, and our replay programs against it. USAGE has the modes.

use program::usage::Usage;
#[cfg(has_oracle)]
use replay_oracle::head::Modes;
use std::io;
#[cfg(has_oracle)]
use std::io::Write;
use std::process::ExitCode;

const USAGE: Usage = Usage {
    program: "replay_oracle",
    text: "\
usage: replay_oracle MODE
  plain                   a trace on standard input, document 01's lines on standard output
  state                   the same with eleven bytes ahead of the trace (parameters, modes), and a state
                          line after each line
  values                  a trace on standard input, a line for each read that ends Complete: record,
                          node, object, data
  cover RECORDS [SEED]    the generator and the oracle alone, in both modes: how often each rule is
                          reached
  compare RECORDS [SEED]  our replay_states, replay and values on drawn traces of so many records, from
                          a first seed on, line by line against the oracle; then replay_states on as
                          many in published mode
  trace SEED [published] | longest [published] | values
                          the drawn trace of a seed, or one of 65,535 records and more: of any kind (in
                          published mode: about parts), or about values; with the eleven bytes ahead
  fixed ROOT              writes the samples of traces and lines that run without Rust, below the
                          root of this repository
exit status: 0 all is well, 1 it is not",
};

fn main() -> ExitCode {
    USAGE.run(run)
}

/// Answers whether all is well.
#[cfg(has_oracle)]
fn run(arguments: &[&str]) -> io::Result<bool> {
    use replay_oracle::{compare, cover, fixed, stream};
    use std::path::Path;

    let mut output = io::stdout().lock();
    match arguments {
        [mode @ ("cover" | "compare"), records] => return run(&[mode, records, "0"]),
        ["compare", records, seed] => {
            return compare::run(USAGE.number(records)?, USAGE.number(seed)?, &mut output)
        }
        ["cover", records, seed] => {
            for modes in [Modes::REPOSITORY, Modes::PUBLISHED] {
                let (records, seed) = (USAGE.number(records)?, USAGE.number(seed)?);
                let covered = cover::each_trace(modes, records, seed, |_, _| Ok(()))?;
                output.write_all(covered.text().as_bytes())?;
            }
        }
        ["plain"] => stream::plain(io::stdin().lock(), &mut output)?,
        ["state"] => stream::with_state(io::stdin().lock(), &mut output)?,
        ["values"] => stream::values(io::stdin().lock(), &mut output)?,
        ["trace", which] => output.write_all(&trace(which, Modes::REPOSITORY)?)?,
        ["trace", which, "published"] => output.write_all(&trace(which, Modes::PUBLISHED)?)?,
        ["fixed", root] => {
            let table = fixed::write(Path::new(root)).map_err(io::Error::other)?;
            output.write_all(table.as_bytes())?;
        }
        _ => return Err(USAGE.called_wrongly(arguments)),
    }
    output.flush()?;
    Ok(true)
}

/// A drawn trace with its head.
#[cfg(has_oracle)]
fn trace(which: &str, modes: Modes) -> io::Result<Vec<u8>> {
    use replay_oracle::generate;

    let run = match which {
        "longest" => generate::longest(modes),
        "values" if !modes.published => generate::longest_about_values(),
        seed => generate::drawn(modes, USAGE.number(seed)?),
    };
    Ok(run.map_err(io::Error::other)?.with_head())
}

#[cfg(not(has_oracle))]
fn run(_: &[&str]) -> io::Result<bool> {
    Err(USAGE.no_oracle())
}
