//! A line of values as a row: the record, the node and the object of a read, and what it brought, in words.

#[cfg(test)]
mod tests;

use crate::bad::Bad;
use crate::row::{head, object, size, Row, Tone};
use replay_line::Value;

/// The sizes that numbers have.
const NUMBER_SIZES: [usize; 4] = [1, 2, 4, 8];
/// How many bytes in hex stand together.
const GROUP: usize = 4;

pub fn row(text: &[u8]) -> Result<Row, Bad> {
    let line = replay_line::read_value(text).map_err(Bad::Expected)?;
    let Value {
        node,
        index,
        sub_index,
        data,
    } = line.value;
    let text = format!(
        "{:>5}  {}  {:<7}  {:<10}  {}",
        line.record,
        head("from", node),
        object(index, sub_index),
        size(data.len()),
        words(&data),
    );
    Ok(Row::new(Tone::Answer, text))
}

/// Data as a number and as a text, where the bytes can be one; else the bytes.
pub fn words(data: &[u8]) -> String {
    if data.is_empty() {
        return "no data".into();
    }
    let meant: Vec<String> = [number(data), text(data)].into_iter().flatten().collect();
    match meant.is_empty() {
        true => format!("data {}", groups(data)),
        false => meant.join(", "),
    }
}

/// Low byte first. Nobody says whether a number has a sign, so it is shown with and without.
fn number(data: &[u8]) -> Option<String> {
    if !NUMBER_SIZES.contains(&data.len()) {
        return None;
    }
    let mut bytes = [0; 8];
    bytes[..data.len()].copy_from_slice(data);
    let unsigned = u64::from_le_bytes(bytes);
    // Up to the highest place and down again, so that the sign fills the places above the data.
    let above = 8 * (bytes.len() - data.len());
    let signed = (unsigned << above) as i64 >> above;
    Some(format!("unsigned {unsigned}, signed {signed}"))
}

fn text(data: &[u8]) -> Option<String> {
    let printable = data.iter().all(|byte| (0x20..=0x7E).contains(byte));
    printable.then(|| format!("text \"{}\"", String::from_utf8_lossy(data)))
}

fn groups(data: &[u8]) -> String {
    let groups: Vec<String> = data.chunks(GROUP).map(hex::text).collect();
    groups.join(" ")
}
