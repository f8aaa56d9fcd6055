//! Where the lines of a program and those of the oracle part.

use crate::line;
use record::RECORD_BYTES;

/// How much of a line is shown.
const SHOWN: usize = 160;

/// How a line tells which record it is of.
#[derive(Debug, Clone, Copy, PartialEq, Eq)]
pub enum Numbering {
    /// By its place: each record has so many lines.
    Place(usize),
    /// By the number that it begins with.
    Own,
}

#[derive(Debug, PartialEq)]
pub enum Difference {
    /// The program did not end well.
    Failed(String),
    Lines {
        /// How many are not those of the oracle at the same places.
        lines: usize,
        /// The first of them: its record, where one is told, and from where on the two differ.
        record: Option<usize>,
        ours: String,
        rust: String,
    },
}

/// How many lines are the same, where all are.
pub fn difference(
    rust: &[u8],
    ours: Result<Vec<u8>, String>,
    numbering: Numbering,
) -> Result<usize, Difference> {
    let ours = ours.map_err(Difference::Failed)?;
    let [ours, rust] = [&ours[..], rust].map(lines);
    let most = ours.len().max(rust.len());
    let mut different = (0..most).filter(|place| ours.get(*place) != rust.get(*place));
    let Some(first) = different.next() else {
        return Ok(most);
    };
    let lines = 1 + different.count();
    let [ours, rust] = [ours, rust].map(|lines| lines.get(first).copied().unwrap_or_default());
    let both = ours.iter().zip(rust);
    let equal = both.take_while(|(ours, rust)| ours == rust).count();
    Err(Difference::Lines {
        lines,
        record: match numbering {
            Numbering::Place(lines_a_record) => Some(first / lines_a_record + 1),
            // Where one side lacks a line, the other has the earlier record.
            Numbering::Own => [ours, rust].into_iter().filter_map(number).min(),
        },
        ours: shown(ours, equal),
        rust: shown(rust, equal),
    })
}

fn lines(text: &[u8]) -> Vec<&[u8]> {
    text.split_inclusive(|byte| *byte == b'\n').collect()
}

/// The number that a line begins with; no record has the number 0.
fn number(line: &[u8]) -> Option<usize> {
    let word = line.split(|byte| *byte == b' ').next()?;
    let number = std::str::from_utf8(word).ok()?.parse().ok();
    number.filter(|number| *number > 0)
}

/// A line, or the piece of it around a place.
fn shown(line: &[u8], place: usize) -> String {
    if line.is_empty() {
        return "no line".into();
    }
    let begin = if place < SHOWN { 0 } else { place - SHOWN / 2 };
    let end = line.len().min(begin + SHOWN);
    let piece = String::from_utf8_lossy(&line[begin..end]);
    let before = if begin > 0 { "..." } else { "" };
    let after = if end < line.len() { "..." } else { "" };
    format!("{before}{}{after}", piece.trim_end())
}

impl Difference {
    /// How many lines differ, as far as one can tell.
    pub fn lines(&self) -> usize {
        match self {
            Self::Failed(_) => 0,
            Self::Lines { lines, .. } => *lines,
        }
    }

    pub fn text(&self, program: &str, trace: &str, records: &[u8]) -> String {
        match self {
            Self::Failed(error) => format!("DIFFERENCE in {program}, {trace}: {error}\n"),
            Self::Lines {
                record, ours, rust, ..
            } => {
                let record = record.map_or("\n".into(), |record| of_record(record, records));
                format!("DIFFERENCE in {program}, {trace}{record}  ours  {ours}\n  Rust  {rust}\n")
            }
        }
    }
}

fn of_record(record: usize, records: &[u8]) -> String {
    let begin = (record - 1).saturating_mul(RECORD_BYTES).min(records.len());
    let end = records.len().min(begin + RECORD_BYTES);
    let mut hex = Vec::new();
    line::put_hex(&mut hex, &records[begin..end]);
    let bytes = String::from_utf8_lossy(&hex);
    format!(", record {record}\n  bytes {bytes}\n")
}

#[cfg(test)]
mod tests {
    use super::{difference, Difference, Numbering};

    const STATES: &[u8] = b"1 7 0 - - -\n= - - -\n2 6 0 - - -\n= - - -\n";
    const VALUES: &[u8] = b"5 3 2100:01 0104\n12 4 2100:01 -\n";

    /// The first record that differs, and how many lines do.
    fn found(rust: &[u8], ours: &[u8], numbering: Numbering) -> (Option<usize>, usize) {
        match difference(rust, Ok(ours.to_vec()), numbering) {
            Err(Difference::Lines { record, lines, .. }) => (record, lines),
            other => panic!("{other:?}"),
        }
    }

    #[test]
    fn the_same() {
        let same =
            |lines: &[u8], numbering| difference(lines, Ok(lines.to_vec()), numbering).unwrap();
        assert_eq!(same(STATES, Numbering::Place(2)), 4);
        assert_eq!(same(b"", Numbering::Place(1)), 0);
        assert_eq!(same(VALUES, Numbering::Own), 2);
    }

    #[test]
    fn lines_that_differ_by_their_places() {
        for (ours, record, lines) in [
            (&b"1 7 0 - - -\n= - - -\n2 6 8 - - -\n= - - -\n"[..], 2, 1),
            (b"1 7 0 - - -\n= 5 - -\n2 6 0 - - -\n= - - 1\n", 1, 2),
            (b"1 7 0 - - -\n= - - -\n2 6 0 - - -\n", 2, 1),
            (b"1 7 0 - - -\n= - - -\n2 6 0 - - -\n= - - -\n3\n", 3, 1),
            (b"", 1, 4),
        ] {
            assert_eq!(
                found(STATES, ours, Numbering::Place(2)),
                (Some(record), lines)
            );
        }
    }

    #[test]
    fn lines_that_differ_by_their_numbers() {
        for (ours, record, lines) in [
            (&b"5 3 2100:01 0105\n12 4 2100:01 -\n"[..], Some(5), 1),
            (b"12 4 2100:01 -\n", Some(5), 2),
            (b"4 3 2100:01 0104\n12 4 2100:01 -\n", Some(4), 1),
            (b"5 3 2100:01 0104\n", Some(12), 1),
            (b"5 3 2100:01 0104\n12 4 2100:01 -\nx\n", None, 1),
            (b"5 3 2100:01 0104\n12 4 2100:01 -\n0 \n", None, 1),
            (b"5 3 2100:01 0104\n12 4 2100:01 -", Some(12), 1),
        ] {
            assert_eq!(found(VALUES, ours, Numbering::Own), (record, lines));
        }
    }

    #[test]
    fn a_difference_far_inside_a_line_is_shown() {
        let rust = [&[b'A'; 1_000][..], b"C\n"].concat();
        let ours = [&[b'A'; 1_000][..], b"B\n"].concat();
        let Err(found) = difference(&rust, Ok(ours), Numbering::Place(1)) else {
            panic!("they differ");
        };
        let text = found.text("replay", "seed 9", &[0xAB; 40]);
        assert!(text.starts_with("DIFFERENCE in replay, seed 9, record 1\n  bytes ABAB"));
        assert!(text.contains("AAB\n") && text.contains("AAC\n"), "{text}");
    }

    #[test]
    fn a_number_that_no_record_has() {
        let ours = format!("{} 3 2100:01 -\n", usize::MAX);
        let Err(found) = difference(b"", Ok(ours.into_bytes()), Numbering::Own) else {
            panic!("they differ");
        };
        let text = found.text("values", "seed 9", &[0xAB; 40]);
        assert!(text.contains("\n  bytes \n  ours  "), "{text}");
        assert!(text.ends_with("\n  Rust  no line\n"), "{text}");
    }
}
