//! A concise DCF as rows: its count, its readable entries, why they stop where they do, and what a repair keeps and drops.

mod stop;
#[cfg(test)]
mod tests;

use crate::bad::Bad;
use crate::row::{counted, object, size, Row, Tone};
use crate::values;
use ostelumiv::{ConciseDcf, DcfCursor, DcfEntry, DcfStep, Refusal};
use std::io::{self, Read};

/// What is shown at most. An input may have no end, so what is longer is not read.
const MOST_SHOWN: usize = 65_536;
/// The longest DCF that the client takes.
const MOST_TAKEN: usize = 4_096;

/// A whole input, or as much of it as tells that it is too long.
pub fn read(input: &mut impl Read) -> io::Result<Vec<u8>> {
    let mut bytes = Vec::new();
    input.take(MOST_SHOWN as u64 + 1).read_to_end(&mut bytes)?;
    Ok(bytes)
}

pub fn rows(bytes: &[u8]) -> Result<Vec<Row>, Bad> {
    if bytes.len() > MOST_SHOWN {
        return Err(Bad::Found("a DCF of at most 65536 bytes", "more".into()));
    }
    let dcf = ConciseDcf::new(bytes)?;
    let mut rows = vec![count(&dcf, bytes)];
    rows.extend(doubts(bytes));
    let mut cursor = dcf.first();
    while let DcfStep::Entry(found, behind) = dcf.step(cursor) {
        rows.push(entry(&dcf, cursor, &found));
        cursor = behind;
    }
    rows.extend(stop::row(&dcf, bytes, cursor));
    rows.push(repair(&dcf, bytes, cursor));
    Ok(rows)
}

fn count(dcf: &ConciseDcf, bytes: &[u8]) -> Row {
    let length = counted(bytes.len(), "byte", "bytes");
    Row::new(Tone::Plain, format!("count {}, {length}", dcf.count()))
}

/// What the codec reads all the same.
fn doubts(bytes: &[u8]) -> Vec<Row> {
    let mut doubts = vec![];
    if bytes.len() > MOST_TAKEN {
        let refused = Bad::Refused(Refusal::NoRoom);
        doubts.push(format!(
            "longer than {MOST_TAKEN} bytes: a start or salvage of it is {refused}"
        ));
    }
    // The count of a DCF that fits has a byte 0, which no text has.
    if hex::bytes(bytes).is_some_and(|meant| !meant.is_empty()) {
        doubts.push("this looks like a text in hex; a DCF is given as its bytes".into());
    }
    let row = |words| Row::new(Tone::Trouble, words);
    doubts.into_iter().map(row).collect()
}

/// How many entries were read on the way to a cursor.
fn passed(dcf: &ConciseDcf, cursor: DcfCursor) -> u32 {
    dcf.count() - cursor.left
}

/// The first cells of a row about what stands at a cursor.
fn place(number: &str, cursor: DcfCursor, object: &str) -> String {
    format!("{number:>5}  at {:>5}  {object:<7}", cursor.at)
}

/// The same for the next counted entry, which has the number behind those that were read.
fn place_of_entry(dcf: &ConciseDcf, cursor: DcfCursor, object: &str) -> String {
    // One entry is left at least, so this is not past the count.
    let number = passed(dcf, cursor) + 1;
    place(&number.to_string(), cursor, object)
}

fn entry(dcf: &ConciseDcf, cursor: DcfCursor, entry: &DcfEntry) -> Row {
    let object = object(entry.index, entry.sub_index);
    let text = format!(
        "{}  {:<10}  {}",
        place_of_entry(dcf, cursor, &object),
        size(entry.data.len()),
        values::words(entry.data),
    );
    Row::new(Tone::Plain, text)
}

/// What a repair keeps, which ends at the cursor, and what it drops. What is too long for it is kept or dropped by nobody.
fn repair(dcf: &ConciseDcf, bytes: &[u8], cursor: DcfCursor) -> Row {
    let readable = format!(
        "readable: {} of {}, {}",
        passed(dcf, cursor),
        counted(dcf.count() as usize, "entry", "entries"),
        counted(cursor.at, "byte", "bytes"),
    );
    if bytes.len() > MOST_TAKEN {
        return Row::new(Tone::Trouble, readable);
    }
    let behind = bytes.len() - cursor.at;
    let whole = behind == 0 && cursor.left == 0;
    let tone = if whole { Tone::Good } else { Tone::Trouble };
    Row::new(tone, format!("{readable}; {}", dropped(behind, cursor)))
}

fn dropped(behind: usize, cursor: DcfCursor) -> String {
    match (behind, cursor.left as usize) {
        (0, 0) => "nothing is dropped".into(),
        // Cut between two entries, which nobody can tell from a count that is too large.
        (0, missing) => {
            let missing = counted(missing, "counted entry is", "counted entries are");
            format!("no byte is dropped, but {missing} missing")
        }
        (more, _) => {
            let dropped = counted(more, "byte is dropped", "bytes are dropped");
            format!("{dropped}, from offset {} on", cursor.at)
        }
    }
}
