//! The panel's display: SDO frames in hex, the lines that the replay or values print, or a concise DCF, as a picture in words.
//!
//! A frame is what the client sends or receives: the sequence header, then the command. The bytes of frames and of a DCF are
//! read by the proved codec; this crate only finds words for what it answers.

mod bad;
mod colour;
mod dcf;
mod frames;
mod replay;
mod row;
#[cfg(test)]
mod tests;
mod values;
mod words;
mod wrapped;

use bad::Bad;
pub use colour::When;
use row::{Row, Tone};
use std::io::{self, BufRead, Read, Write};

/// What the input's lines are.
#[derive(Debug, Clone, Copy, PartialEq, Eq)]
pub enum Notation {
    /// A frame each, with or without its node and direction.
    Frames,
    /// Those of the replay.
    Replay,
    /// Those of values.
    Values,
}

impl Notation {
    /// The rows of a line, none where it is blank or a comment. A mark may stand in front of the first.
    fn rows(self, line: &[u8], first: bool) -> Result<Vec<Row>, Bad> {
        let utf_16 = Bad::Expected("a text in UTF-8, not UTF-16");
        let line = if first {
            program::text(line).ok_or(utf_16)?
        } else {
            line
        };
        let text = line.trim_ascii();
        // Where lines end in CR alone, the whole text is one of them.
        if text.contains(&b'\r') {
            return Err(Bad::Expected(
                "a line that ends in LF or CRLF, not CR alone",
            ));
        }
        if text.is_empty() || text.starts_with(b"#") {
            return Ok(vec![]);
        }
        match self {
            Self::Frames => Ok(vec![frames::row(text)?]),
            Self::Replay => replay::rows(text),
            Self::Values => Ok(vec![values::row(text)?]),
        }
    }
}

/// Shows every line of the input and answers whether all of them could be shown. A line that cannot be
/// shown is told by its number, in its place. Blank lines and lines that start with # are passed over.
pub fn run(
    notation: Notation,
    coloured: bool,
    input: &mut impl BufRead,
    output: &mut impl Write,
) -> io::Result<bool> {
    let mut all_shown = true;
    let mut line = Vec::new();
    for number in 1_u64.. {
        line.clear();
        let read = input.read_until(b'\n', &mut line);
        if read.map_err(program::of_input)? == 0 {
            break;
        }
        let rows = notation.rows(&line, number == 1).unwrap_or_else(|bad| {
            all_shown = false;
            vec![Row::new(Tone::Trouble, format!("line {number}: {bad}"))]
        });
        put(&rows, coloured, output)?;
    }
    Ok(all_shown)
}

/// Shows the DCF that the input is, and answers whether it could be shown. Where it could not, the one row tells why.
pub fn run_dcf(coloured: bool, input: &mut impl Read, output: &mut impl Write) -> io::Result<bool> {
    let bytes = dcf::read(input).map_err(program::of_input)?;
    let mut shown = true;
    let rows = dcf::rows(&bytes).unwrap_or_else(|bad| {
        shown = false;
        vec![Row::new(Tone::Trouble, bad.to_string())]
    });
    put(&rows, coloured, output)?;
    Ok(shown)
}

fn put(rows: &[Row], coloured: bool, output: &mut impl Write) -> io::Result<()> {
    rows.iter()
        .try_for_each(|row| colour::put(output, row, coloured))
        .map_err(program::of_output)
}
