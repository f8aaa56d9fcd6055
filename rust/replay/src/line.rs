//! The lines that are printed: document 01's line of a record, the state line of replay_states, and the line
//! of values. Numbers and hex are put without `format!`, since tests/bench counts the instructions of a run.

use crate::client::{Outcome, Sent};
use crate::sum::Sum;
use crate::table::{Held, Table};
use replay_line::{End, Value};

/// Sequence header, command header with data size, and the longest part.
const MOST_SENT: usize = 4 + 12 + 1_452;

/// A byte's two hex digits, for all bytes.
static HEX: [[u8; 2]; 256] = hex_table();

const fn hex_table() -> [[u8; 2]; 256] {
    let digits = b"0123456789ABCDEF";
    let mut table = [[0; 2]; 256];
    let mut byte = 0;
    while byte < 256 {
        table[byte] = [digits[byte >> 4], digits[byte & 15]];
        byte += 1;
    }
    table
}

pub fn put_hex(out: &mut Vec<u8>, bytes: &[u8]) {
    out.extend(bytes.iter().flat_map(|byte| HEX[usize::from(*byte)]));
}

fn put_number(out: &mut Vec<u8>, mut number: u64) {
    let mut digits = [0; 20];
    let mut at = digits.len();
    loop {
        at -= 1;
        digits[at] = b'0' + (number % 10) as u8;
        number /= 10;
        if number == 0 {
            break;
        }
    }
    out.extend_from_slice(&digits[at..]);
}

/// Document 01's line: number, operation, refusal or 0, node sent to, bytes sent, ends. A record that
/// is short has no operation.
pub fn put_line(out: &mut Vec<u8>, number: u32, operation: Option<u8>, outcome: &Outcome) {
    put_number(out, number.into());
    out.push(b' ');
    match operation {
        Some(operation) => put_number(out, operation.into()),
        None => out.push(b'-'),
    }
    match outcome {
        Ok(answer) => {
            out.extend_from_slice(b" 0 ");
            match &answer.sent {
                Some(sent) => put_sent(out, sent),
                None => out.extend_from_slice(b"- -"),
            }
            out.push(b' ');
            put_ends(out, &answer.ends);
        }
        Err(refusal) => {
            out.push(b' ');
            put_number(out, refusal.number().into());
            out.extend_from_slice(b" - - -");
        }
    }
    out.push(b'\n');
}

/// The repository writes the bytes of what is sent.
fn put_sent(out: &mut Vec<u8>, (node, sequence, command): &Sent) {
    let mut bytes = [0; MOST_SENT];
    let head = sequence.serialize(&mut bytes).expect("room for a header");
    let rest = command.serialize(&mut bytes[head..]);
    let length = head + rest.expect("room for the longest command");
    put_number(out, node.0.into());
    out.push(b' ');
    put_hex(out, &bytes[..length]);
}

fn put_ends(out: &mut Vec<u8>, ends: &[End]) {
    put_joined(out, ends, |out, end| {
        put_number(out, end.node.into());
        out.extend_from_slice(&[b':', end.reason.letter(), b':']);
        put_number(out, end.delivered as u64);
    });
}

/// `= NEXT HELD READ`: next action time, held connections, and what this record's reply brought a
/// read that it ended Complete.
pub fn put_state(out: &mut Vec<u8>, next: Option<u64>, table: &Table, read: Option<&Value>) {
    out.extend_from_slice(b"= ");
    put_option(out, next);
    out.push(b' ');
    put_joined(out, &table.held, put_held);
    out.push(b' ');
    match read {
        Some(value) => put_sum(out, &value.data),
        None => out.push(b'-'),
    }
    out.push(b'\n');
}

/// `RECORD NODE INDEX:SUB DATA`: what a read brought that this record ended Complete.
pub fn put_value(out: &mut Vec<u8>, record: u32, value: &Value) {
    put_number(out, record.into());
    out.push(b' ');
    put_number(out, value.node.into());
    out.push(b' ');
    put_hex(out, &value.index.to_be_bytes());
    out.push(b':');
    put_hex(out, &[value.sub_index]);
    out.push(b' ');
    match &value.data[..] {
        [] => out.push(b'-'),
        data => put_hex(out, data),
    }
    out.push(b'\n');
}

/// `node:state:transaction:send:last:deadline:retries:offset:uploaded:sum`.
fn put_held(out: &mut Vec<u8>, held: &Held) {
    let numbers = [
        held.node,
        held.state as u8,
        held.transaction,
        held.send,
        held.last,
    ];
    for number in numbers {
        put_number(out, number.into());
        out.push(b':');
    }
    put_option(out, held.deadline);
    out.push(b':');
    put_number(out, held.retries.into());
    out.push(b':');
    put_number(out, held.offset as u64);
    out.push(b':');
    put_sum(out, held.uploaded());
}

fn put_sum(out: &mut Vec<u8>, bytes: &[u8]) {
    let sum = Sum::of(bytes);
    put_number(out, sum.length as u64);
    out.push(b':');
    put_number(out, sum.fnv.into());
}

fn put_option(out: &mut Vec<u8>, number: Option<u64>) {
    match number {
        Some(number) => put_number(out, number),
        None => out.push(b'-'),
    }
}

/// Joined by commas, or `-` for none.
fn put_joined<T>(out: &mut Vec<u8>, list: &[T], put: impl Fn(&mut Vec<u8>, &T)) {
    if list.is_empty() {
        out.push(b'-');
    }
    for (place, one) in list.iter().enumerate() {
        if place > 0 {
            out.push(b',');
        }
        put(out, one);
    }
}

#[cfg(test)]
mod tests {
    use super::{put_hex, put_line, put_number, put_state, put_value};
    use crate::client::Answer;
    use crate::refusal::Refusal;
    use crate::table::Table;
    use replay_line::{End, Reason, Value};

    fn text(put: impl FnOnce(&mut Vec<u8>)) -> String {
        let mut out = Vec::new();
        put(&mut out);
        String::from_utf8(out).unwrap()
    }

    #[test]
    fn numbers() {
        for number in [0, 7, 10, 4_095, u64::MAX] {
            assert_eq!(text(|out| put_number(out, number)), number.to_string());
        }
    }

    #[test]
    fn hex_of_every_byte() {
        for byte in 0..=u8::MAX {
            assert_eq!(text(|out| put_hex(out, &[byte])), format!("{byte:02X}"));
        }
    }

    #[test]
    fn refusals() {
        let refused = |number, operation, refusal| {
            text(|out| put_line(out, number, operation, &Err(refusal)))
        };
        assert_eq!(
            refused(3, Some(200), Refusal::BadRecord),
            "3 200 10 - - -\n"
        );
        assert_eq!(refused(1, None, Refusal::ShortRecord), "1 - 11 - - -\n");
    }

    #[test]
    fn ends_are_joined() {
        let end = |node, reason, delivered| End {
            node,
            reason,
            delivered,
        };
        let ends = vec![end(4, Reason::Cut, 12), end(255, Reason::Timeout, 0)];
        let outcome = Ok(Answer { sent: None, ends });
        let line = text(|out| put_line(out, 65_535, Some(6), &outcome));
        assert_eq!(line, "65535 6 0 - - 4:X:12,255:T:0\n");
    }

    #[test]
    fn a_state_with_nothing() {
        assert_eq!(
            text(|out| put_state(out, None, &Table::default(), None)),
            "= - - -\n"
        );
    }

    /// The request's own example, and what stands for no data.
    #[test]
    fn values() {
        let mut value = Value {
            node: 3,
            index: 0x2100,
            sub_index: 1,
            data: vec![0x01, 0x04],
        };
        assert_eq!(text(|out| put_value(out, 5, &value)), "5 3 2100:01 0104\n");
        value.data.clear();
        assert_eq!(
            text(|out| put_value(out, 65_535, &value)),
            "65535 3 2100:01 -\n"
        );
    }
}
