//! A line with a frame: its bytes in hex, and where it is known, the node and the direction ahead of them.

use crate::bad::Bad;
use crate::row::Row;
use crate::words::{self, Way};
use crate::wrapped;

/// `HEX`, `5 > HEX` to node 5, or `5 < HEX` from it. A frame that was copied whole has these itself.
pub fn row(text: &[u8]) -> Result<Row, Bad> {
    let (said, digits) = way(text)?;
    let frame = hex::bytes(digits).ok_or_else(|| not_hex(text))?;
    let (nodes, sdo) = wrapped::sdo(&frame)?;
    let way = nodes.map_or(Ok(said), |nodes| nodes.way(said))?;
    Ok(words::frame(way, sdo)?)
}

fn not_hex(text: &[u8]) -> Bad {
    let (whose, mode) = if replay_line::read(text).is_ok() {
        ("the replay", "replay")
    } else if replay_line::read_value(text).is_ok() {
        ("values", "values")
    } else {
        return Bad::Expected("bytes in hex, two digits a byte");
    };
    let found = format!("a line of {whose}, which 'display {mode}' shows (make display DO={mode})");
    Bad::Found("a frame", found)
}

fn way(text: &[u8]) -> Result<(Way, &[u8]), Bad> {
    let Some(place) = text.iter().position(|byte| b"<>".contains(byte)) else {
        return Ok((Way::Unknown, text));
    };
    let node = node(&text[..place]).ok_or(Bad::Expected("a node from 0 to 255 ahead of > or <"))?;
    let way = match text[place] {
        b'>' => Way::To(node),
        _ => Way::From(node),
    };
    Ok((way, &text[place + 1..]))
}

fn node(text: &[u8]) -> Option<u8> {
    let word = std::str::from_utf8(text.trim_ascii()).ok()?;
    word.parse().ok()
}
