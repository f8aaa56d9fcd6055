//! A line of the replay, read (document 01, "Replay"): record number, operation, refusal or 0, node sent
//! to, bytes sent in hex, ends. And a line of `values`, which reads the same traces (value).

mod end;
#[cfg(test)]
mod tests;
mod value;

pub use end::{End, Reason};
pub use value::{read_value, Value, ValueLine};

#[derive(Debug, PartialEq, Eq)]
pub struct Line {
    pub record: u32,
    /// None where the record was short.
    pub operation: Option<u8>,
    /// The refusal's number, or 0.
    pub refusal: u8,
    pub sent: Option<Sent>,
    pub ends: Vec<End>,
}

/// What went out to a node: the sequence header, then the command.
#[derive(Debug, PartialEq, Eq)]
pub struct Sent {
    pub node: u8,
    pub bytes: Vec<u8>,
}

/// What stands for nothing.
const NOTHING: &str = "-";

/// The line, or what was expected of it.
pub fn read(text: &[u8]) -> Result<Line, &'static str> {
    let fields = "six fields: record number, operation, refusal, node, bytes, ends";
    let text = std::str::from_utf8(text).map_err(|_| fields)?;
    let words: Vec<&str> = text.split_ascii_whitespace().collect();
    let [record, operation, refusal, node, bytes, ends] = words[..] else {
        return Err(fields);
    };
    Ok(Line {
        record: record.parse().map_err(|_| "a record number first")?,
        operation: operation_of(operation)?,
        refusal: refusal.parse().map_err(|_| "a refusal or 0 third")?,
        sent: sent_of(node, bytes)?,
        ends: ends_of(ends).ok_or("ends such as 5:C:1, or -, last")?,
    })
}

fn operation_of(word: &str) -> Result<Option<u8>, &'static str> {
    if word == NOTHING {
        return Ok(None);
    }
    let number = word.parse().map_err(|_| "an operation second")?;
    Ok(Some(number))
}

fn sent_of(node: &str, bytes: &str) -> Result<Option<Sent>, &'static str> {
    if (node, bytes) == (NOTHING, NOTHING) {
        return Ok(None);
    }
    if node == NOTHING || bytes == NOTHING {
        return Err("a node with bytes, or neither");
    }
    Ok(Some(Sent {
        node: node.parse().map_err(|_| "a node from 0 to 255 fourth")?,
        bytes: hex::word_bytes(bytes.as_bytes()).map_err(|_| "bytes in hex fifth")?,
    }))
}

fn ends_of(word: &str) -> Option<Vec<End>> {
    if word == NOTHING {
        return Some(vec![]);
    }
    word.split(',').map(End::of_text).collect()
}
