//! The place where the readable entries of a DCF stop, and why: the next one is not readable, or none is counted any more.

use super::{place, place_of_entry};
use crate::row::{counted, object, Row, Tone};
use ostelumiv::{ConciseDcf, DcfCursor, DcfStep};

/// The row of what stands behind the readable entries; none where nothing does and nothing is missing.
pub fn row(dcf: &ConciseDcf, bytes: &[u8], cursor: DcfCursor) -> Option<Row> {
    let left = &bytes[cursor.at..];
    let text = match dcf.step(cursor) {
        DcfStep::Unreadable => {
            let place = place_of_entry(dcf, cursor, &object_of_cut(left));
            format!("{place}  not readable: {}", reason(left))
        }
        _ if left.is_empty() => return None,
        _ => not_counted(dcf, cursor, left),
    };
    Some(Row::new(Tone::Trouble, text))
}

/// The object of an entry that is not readable, where enough of it is there.
fn object_of_cut(left: &[u8]) -> String {
    match *left {
        [low, high, sub_index, ..] => object(u16::from_le_bytes([low, high]), sub_index),
        _ => String::new(),
    }
}

/// Why no entry can be read from what is left: the codec only says that it cannot.
fn reason(left: &[u8]) -> String {
    let Some(([_, _, _, size @ ..], data)) = left.split_first_chunk::<7>() else {
        return format!("it needs 7 bytes ahead of its data, and {}", are_left(left));
    };
    let size = u32::from_le_bytes(*size) as usize;
    let says = counted(size, "byte", "bytes");
    format!("its size says {says}, and {}", are_left(data))
}

fn are_left(bytes: &[u8]) -> String {
    match bytes.len() {
        0 => "nothing is left".into(),
        left => counted(left, "is left", "are left"),
    }
}

/// What stands behind all that is counted. Where that is an entry, too, the count may be wrong and not the bytes.
fn not_counted(dcf: &ConciseDcf, cursor: DcfCursor, left: &[u8]) -> String {
    let one_more = DcfCursor { left: 1, ..cursor };
    let (object, doubt) = match dcf.step(one_more) {
        // Zeros that fill up a file can be read as entries of index 0, which is no object's.
        DcfStep::Entry(entry, _) if entry.index != 0 => (
            object(entry.index, entry.sub_index),
            ", first of them a whole entry: the count may be too small",
        ),
        _ => (String::new(), ""),
    };
    let last = match dcf.count() {
        0 => "count",
        _ => "last counted entry",
    };
    let bytes = counted(left.len(), "byte stands", "bytes stand");
    let place = place("-", cursor, &object);
    format!("{place}  not counted: {bytes} behind the {last}{doubt}")
}
