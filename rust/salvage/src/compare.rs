//! Our program salvages against the repository: drawn DCFs go to both in batches, and each line and each byte
//! is compared.

use crate::batch;
use crate::counts::Counts;
use crate::difference::difference;
use crate::kinds::{Drawn, Rounds};
use crate::repair::{repair, Answer};
use program::proved::Program;
use std::fs;
use std::io::{self, Write};
use std::path::Path;

/// How many DCFs a run of the program has, or a few more.
const BATCH: usize = 10_000;

/// Where the input of the run that differs is kept, from the root of this repository.
const KEPT: &str = "target/salvages.input";

/// Compares over at least so many DCFs. It answers whether none differs, and none is missing of what must be
/// drawn and come out.
pub fn run(least: usize, seed: u64, out: &mut impl Write) -> io::Result<bool> {
    let program = match Program::find("salvages") {
        Ok(program) => program,
        Err(missing) => {
            writeln!(out, "NOT COMPARED: {missing}")?;
            return Ok(false);
        }
    };
    let mut rounds = Rounds::new(seed);
    let mut counts = Counts::default();
    while counts.in_all() < least {
        let batch = rounds.draw(BATCH.min(least - counts.in_all()));
        let answers: Vec<_> = batch.iter().map(|drawn| repair(&drawn.dcf)).collect();
        if let Err(told) = compare(&program, &batch, &answers) {
            out.write_all(told.as_bytes())?;
            return Ok(false);
        }
        for (drawn, answer) in batch.iter().zip(&answers) {
            counts.add(drawn, answer);
        }
    }
    out.write_all(report(&counts).as_bytes())?;
    Ok(counts.never().is_empty())
}

/// What was compared; and on a line of its own what there should have been.
fn report(counts: &Counts) -> String {
    let same = "none different, and of each repaired DCF the repository sends the same";
    let compared = format!("salvages: {same}; {}", counts.lines());
    match &counts.never()[..] {
        [] => compared,
        never => compared + &format!("NOT ENOUGH: there was none of: {}\n", never.join(", ")),
    }
}

/// Holds a run of the program to the answers, and these to the repository once more. An error tells the first
/// DCF that differs, and where the input is kept.
fn compare(program: &Program, batch: &[Drawn], answers: &[Answer]) -> Result<(), String> {
    let input = batch::input(batch.iter().map(|drawn| &drawn.dcf[..]));
    let told = match program.output(&input) {
        Err(failed) => format!("DIFFERENCE: {failed}\n"),
        Ok(output) => match difference(answers, &output) {
            Some(difference) => difference.text(&batch[difference.place].dcf),
            None => return batch.iter().zip(answers).try_for_each(sent_again),
        },
    };
    Err(told + &keep(&input))
}

/// What the repository sends of the repaired DCF must be what it sent before, and all that is counted.
fn sent_again((drawn, answer): (&Drawn, &Answer)) -> Result<(), String> {
    match &answer.0 {
        Ok(repaired) if !repaired.is_sent_like(&drawn.dcf) => Err(format!(
            "WRONG: the repository sends other entries of a repaired DCF\n  DCF       {}\n  repaired  {}\n",
            hex::text(&drawn.dcf),
            hex::text(&repaired.bytes)
        )),
        _ => Ok(()),
    }
}

/// Keeps an input, and says where; or why it is not kept.
fn keep(input: &[u8]) -> String {
    let file = Path::new(env!("CARGO_MANIFEST_DIR"))
        .join("../..")
        .join(KEPT);
    let folder = file.parent().map_or(Ok(()), fs::create_dir_all);
    match folder.and_then(|()| fs::write(&file, input)) {
        Ok(()) => format!("the input is kept as {KEPT}\n"),
        Err(error) => format!("the input is not kept: {KEPT}: {error}\n"),
    }
}
