//! A line of the program `values`, read: record number, node, object, data in hex.

use super::NOTHING;

/// What a read brought that ended Complete.
#[derive(Debug, Clone, PartialEq, Eq)]
pub struct Value {
    pub node: u8,
    pub index: u16,
    pub sub_index: u8,
    pub data: Vec<u8>,
}

#[derive(Debug, PartialEq, Eq)]
pub struct ValueLine {
    pub record: u32,
    pub value: Value,
}

/// The line, or what was expected of it.
pub fn read_value(text: &[u8]) -> Result<ValueLine, &'static str> {
    let fields = "four fields: record number, node, object, data";
    let text = std::str::from_utf8(text).map_err(|_| fields)?;
    let words: Vec<&str> = text.split_ascii_whitespace().collect();
    let [record, node, object, data] = words[..] else {
        return Err(fields);
    };
    let record = record.parse().map_err(|_| "a record number first")?;
    let node = node.parse().map_err(|_| "a node from 0 to 255 second")?;
    let object = object_of(object);
    let (index, sub_index) = object.ok_or("an object such as 2100:01 third")?;
    let data = data_of(data).ok_or("data in hex, two digits a byte, or -, last")?;
    let value = Value {
        node,
        index,
        sub_index,
        data,
    };
    Ok(ValueLine { record, value })
}

/// Index and sub-index, four digits and two.
fn object_of(word: &str) -> Option<(u16, u8)> {
    let (index, sub_index) = word.split_once(':')?;
    let index = hex::word_bytes(index.as_bytes()).ok()?;
    let sub_index = hex::word_bytes(sub_index.as_bytes()).ok()?;
    let (&[high, low], &[sub_index]) = (&index[..], &sub_index[..]) else {
        return None;
    };
    Some((u16::from_be_bytes([high, low]), sub_index))
}

fn data_of(word: &str) -> Option<Vec<u8>> {
    if word == NOTHING {
        return Some(vec![]);
    }
    hex::word_bytes(word.as_bytes()).ok()
}
