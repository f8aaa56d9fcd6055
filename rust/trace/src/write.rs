//! Lines to records.

use crate::fields;
use crate::operation::operation;
use crate::words::{Fault, Words};
use record::{Operation, Record, MOST_DATA, RECORD_BYTES};
use std::fmt;
use std::ops::RangeInclusive;

/// A line that could not be taken.
#[derive(Debug, PartialEq, Eq)]
pub struct Bad {
    pub line: usize,
    pub fault: Fault,
}

impl fmt::Display for Bad {
    fn fmt(&self, f: &mut fmt::Formatter<'_>) -> fmt::Result {
        write!(f, "line {}, {}", self.line, self.fault)
    }
}

/// The records of a text, or every line of it that could not be taken.
pub fn write(text: &[u8]) -> Result<Vec<u8>, Vec<Bad>> {
    let Some(text) = program::text(text) else {
        let fault = Fault::new(1, "a text in UTF-8", "UTF-16");
        return Err(vec![Bad { line: 1, fault }]);
    };
    let mut writer = Writer::default();
    let mut bad = Vec::new();
    for (place, line) in text.split(|&byte| byte == b'\n').enumerate() {
        if let Err(fault) = writer.line(line) {
            let line = place + 1;
            bad.push(Bad { line, fault });
        }
    }
    if bad.is_empty() {
        Ok(writer.trace)
    } else {
        Err(bad)
    }
}

/// A text whose lines end in CR alone would be one line, and nothing but a comment where it begins with one.
fn one_line(line: &[u8]) -> Result<(), Fault> {
    match line.trim_ascii_end().iter().position(|&byte| byte == b'\r') {
        None => Ok(()),
        Some(place) => {
            let expected = "lines that end in LF or CRLF";
            Err(Fault::new(place + 1, expected, "CR alone"))
        }
    }
}

#[derive(Default)]
struct Writer {
    trace: Vec<u8>,
    /// The last time given, which goes on.
    time: u64,
    /// Whether a short record was written, after which nothing can come.
    short: bool,
}

impl Writer {
    fn line(&mut self, line: &[u8]) -> Result<(), Fault> {
        one_line(line)?;
        let words = &mut Words::of(line);
        if words.at_end() {
            return Ok(());
        }
        if self.short {
            return Err(words.fault("nothing after a short record"));
        }
        if words.take("record") {
            return self.raw(words, RECORD_BYTES..=RECORD_BYTES, "64 hex digits");
        }
        if words.take("short") {
            self.raw(words, 1..=RECORD_BYTES - 1, "2 to 62 hex digits")?;
            self.short = true;
            return Ok(());
        }
        let (record, data) = operation(words)?;
        if let Some(time) = fields::time(words)? {
            self.time = time;
        }
        self.put(record, &data);
        Ok(())
    }

    /// Bytes as they are. They leave the time that goes on.
    fn raw(
        &mut self,
        words: &mut Words,
        lengths: RangeInclusive<usize>,
        expected: &str,
    ) -> Result<(), Fault> {
        let start = words.clone();
        let bytes = fields::data(words, expected)?;
        if !lengths.contains(&bytes.len()) {
            return Err(start.fault_found(expected, format!("{} digits", bytes.len() * 2)));
        }
        if !words.at_end() {
            return Err(words.fault("the end of the line"));
        }
        self.trace.extend(bytes);
        Ok(())
    }

    /// The record of an operation, and ahead of it those that gather what it has no place for.
    fn put(&mut self, record: Record, data: &[u8]) {
        let time = self.time;
        let whole = data.len().saturating_sub(1) / MOST_DATA * MOST_DATA;
        let (gathered, data) = data.split_at(whole);
        for part in gathered.chunks(MOST_DATA) {
            let gather = Record::new(Operation::Gather, 0, time, part);
            self.trace.extend(gather.bytes());
        }
        self.trace.extend(
            Record {
                time,
                data,
                ..record
            }
            .bytes(),
        );
    }
}
