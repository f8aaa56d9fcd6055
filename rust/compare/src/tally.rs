//! Counting what was compared, and telling what differs.

use rng::Rng;
use std::fmt::Debug;
use std::process::ExitCode;

/// How many differences of a group are printed; all are counted.
const MOST_PRINTED: u64 = 5;
/// How many bytes of an input, and characters of an answer, a printed difference shows.
const MOST_BYTES: usize = 64;
const MOST_CHARACTERS: usize = 300;

/// The counts of one group of inputs.
pub struct Tally {
    group: &'static str,
    inputs: u64,
    differences: u64,
    /// How often the repository had written to the buffer that it then refused.
    wrote_and_refused: u64,
}

/// What a write answered, and the whole buffer after it.
type WriteOutcome = (Result<usize, u8>, Vec<u8>);

impl Tally {
    pub fn new(group: &'static str) -> Self {
        Self {
            group,
            inputs: 0,
            differences: 0,
            wrote_and_refused: 0,
        }
    }

    /// Compares the answers to one input.
    pub fn same<T: PartialEq + Debug>(&mut self, ours: &T, theirs: &T, input: impl Debug) {
        self.inputs += 1;
        if ours == theirs {
            return;
        }
        self.differences += 1;
        if self.differences <= MOST_PRINTED {
            println!("DIFFERENCE in {}", self.group);
            println!("  input {}", cut(&input));
            println!("  ours  {}", cut(ours));
            println!("  Rust  {}", cut(theirs));
        }
    }

    /// Lends equal buffers of drawn bytes to both writes, and compares the answers and every byte of
    /// the buffers. Where the repository refuses, ours must be as it was before.
    pub fn same_write(
        &mut self,
        rng: &mut Rng,
        len: usize,
        ours: impl FnOnce(&mut [u8]) -> Result<usize, u8>,
        theirs: impl FnOnce(&mut [u8]) -> Result<usize, u8>,
        input: impl Debug,
    ) {
        let before = rng.bytes(len);
        let our_outcome = outcome(before.clone(), ours);
        let mut their_outcome = outcome(before.clone(), theirs);
        if their_outcome.0.is_err() && their_outcome.1 != before {
            self.wrote_and_refused += 1;
            their_outcome.1 = before;
        }
        self.same(&our_outcome, &their_outcome, (len, input));
    }
}

fn outcome(
    mut buffer: Vec<u8>,
    write: impl FnOnce(&mut [u8]) -> Result<usize, u8>,
) -> WriteOutcome {
    let answer = write(&mut buffer);
    (answer, buffer)
}

/// Bytes as an input is printed: their number, and the first of them in hex.
pub struct Hex<'a>(pub &'a [u8]);

impl Debug for Hex<'_> {
    fn fmt(&self, f: &mut std::fmt::Formatter<'_>) -> std::fmt::Result {
        write!(f, "{} bytes ", self.0.len())?;
        for byte in self.0.iter().take(MOST_BYTES) {
            write!(f, "{byte:02X}")?;
        }
        Ok(())
    }
}

fn cut(value: &impl Debug) -> String {
    let text = format!("{value:?}");
    match text.char_indices().nth(MOST_CHARACTERS) {
        Some((end, _)) => format!("{}...", &text[..end]),
        None => text,
    }
}

/// The groups that were compared.
#[derive(Default)]
pub struct Report(Vec<Tally>);

impl Report {
    pub fn add(&mut self, tally: Tally) {
        self.0.push(tally);
    }

    /// Prints the counts. It fails where anything differs, and where a group had no input.
    pub fn finish(&self) -> ExitCode {
        println!("inputs compared with the repository's Rust, by group");
        for tally in &self.0 {
            println!("{:>9}  {}", tally.inputs, tally.group);
        }
        let sum = |count: fn(&Tally) -> u64| self.0.iter().map(count).sum::<u64>();
        let differences = sum(|tally| tally.differences);
        println!("{:>9}  in all", sum(|tally| tally.inputs));
        println!("{differences:>9}  differences");
        println!(
            "{:>9}  times the Rust wrote before it refused, and ours did not (intended)",
            sum(|tally| tally.wrote_and_refused)
        );
        let empty = self.0.iter().any(|tally| tally.inputs == 0);
        if differences > 0 || empty {
            return ExitCode::FAILURE;
        }
        ExitCode::SUCCESS
    }
}
