//! A fixed sample of DCFs and the repository's answers, as the files that salvages is run on without Rust.

use crate::batch;
use crate::kinds::Rounds;
use crate::repair::repair;
use program::write_file;
use std::path::Path;

const SEED: u64 = 1;
const DCFS: usize = 1_500;

/// The files of the sample, by their names, and how many DCFs it has.
pub fn files() -> ([(&'static str, Vec<u8>); 2], usize) {
    let drawn = Rounds::new(SEED).draw(DCFS);
    let input = batch::input(drawn.iter().map(|drawn| &drawn.dcf[..]));
    let answers = drawn.iter().flat_map(|drawn| repair(&drawn.dcf).printed());
    let files = [
        ("salvages/stdout", answers.collect()),
        ("salvages/stdin", input),
    ];
    (files, drawn.len())
}

/// Writes the files to the folder of the crates, and answers how many DCFs they have.
pub fn write(crates: &Path) -> Result<String, String> {
    let (files, dcfs) = files();
    for (name, bytes) in files {
        write_file(crates, name, &bytes)?;
    }
    Ok(format!("{dcfs} DCFs, with the repository's answers\n"))
}
