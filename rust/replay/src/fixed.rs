//! Traces and the oracle's lines, as the files that our programs are run on, without Rust: a pair each for
//! replay and values, with both parameters absent, and for replay_states with no retries, with some, and in
//! published mode, where the oracle's parts are cut anew. Those of a program's own crate `rt ci` runs, the
//! others tests/samples.

use crate::counts::Counts;
use crate::generate;
use crate::head::Modes;
use program::write_file;
use std::path::Path;

/// A file's name and what is in it.
pub type Files = Vec<(&'static str, Vec<u8>)>;

/// The files, and what the traces of each mode reach together: repository mode, then published mode.
pub fn files() -> Result<(Files, [Counts; 2]), String> {
    let replay = generate::fixed_replay()?;
    let no_retries = generate::fixed_no_retries()?;
    let retries = generate::fixed_retries()?;
    let values = generate::fixed_values()?;
    let published = generate::fixed_published()?;
    let mut counts = [Counts::default(), published.counts.clone()];
    for run in [&replay, &no_retries, &retries, &values] {
        counts[0].add(&run.counts);
    }
    let files = vec![
        ("samples/fixed.lines", replay.plain_lines()),
        ("samples/fixed.records", replay.records),
        ("crates/replay_states/stdin", no_retries.with_head()),
        ("crates/replay_states/stdout", no_retries.lines),
        ("samples/retries.records", retries.with_head()),
        ("samples/retries.lines", retries.lines),
        ("samples/published.records", published.with_head()),
        ("samples/published.lines", published.lines),
        ("crates/values/stdin", values.records),
        ("crates/values/stdout", values.values),
    ];
    Ok((files, counts))
}

/// Writes the files below the repository's root, and answers the tables of what they reach.
pub fn write(root: &Path) -> Result<String, String> {
    let (files, [repository, published]) = files()?;
    for (name, bytes) in files {
        write_file(root, name, &bytes)?;
    }
    Ok(repository.text(Modes::REPOSITORY) + &published.text(Modes::PUBLISHED))
}
