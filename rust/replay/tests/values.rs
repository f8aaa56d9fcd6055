//! The oracle's lines of values, on records written here: what has a line, and what has none.

#![cfg(has_oracle)]

use replay_oracle::stream;

const RECORD: usize = 32;
const NODE: u8 = 3;
const ASK: [u8; RECORD] = record(&[6]);

/// Segmentation, as it stands in the flags of a reply.
const EXPEDITED: u8 = 0;
const INITIATE: u8 = 0x40;
const SEGMENT: u8 = 0x80;
const COMPLETE: u8 = 0xC0;
const ABORT: u8 = 0x20;

const fn record(start: &[u8]) -> [u8; RECORD] {
    let mut record = [0; RECORD];
    let mut at = 0;
    while at < start.len() {
        record[at] = start[at];
        at += 1;
    }
    record
}

/// A read of 2100:01 up to its command, which takes the next four records.
fn opened(node: u8) -> Vec<u8> {
    let read = record(&[2, node, 0x00, 0x21, 0x01]);
    let opens = record(&[4, node, 0x01, 0x01]);
    [read, ASK, opens, ASK].concat()
}

/// A reply of the right numbers to the command of this number; what is long is gathered ahead.
fn reply(node: u8, number: u8, flags: u8, data: &[u8]) -> Vec<u8> {
    let mut trace = Vec::new();
    let mut pieces = data.chunks(16).peekable();
    while let Some(piece) = pieces.next_if(|piece| piece.len() == 16) {
        let mut gather = record(&[7, 0, 0, 0, 0, 16]);
        gather[16..].copy_from_slice(piece);
        trace.extend(gather);
    }
    let own = pieces.next().unwrap_or_default();
    let octet = number << 2 | 2;
    let mut reply = record(&[4, node, octet, octet, 0, own.len() as u8]);
    reply[14] = flags;
    reply[16..16 + own.len()].copy_from_slice(own);
    trace.extend(reply);
    trace
}

fn values(trace: &[u8]) -> String {
    let mut lines = Vec::new();
    stream::values(trace, &mut lines).unwrap();
    String::from_utf8(lines).unwrap()
}

/// A read whose replies after the opening are these, each with an ask ahead of it but for the first.
fn read(replies: &[(u8, &[u8])]) -> Vec<u8> {
    let mut trace = opened(NODE);
    for (place, (flags, data)) in replies.iter().enumerate() {
        if place > 0 {
            trace.extend(ASK);
        }
        trace.extend(reply(NODE, place as u8 + 1, *flags, data));
    }
    trace
}

#[test]
fn an_expedited_read() {
    let trace = read(&[(EXPEDITED, &[0x01, 0x04])]);
    assert_eq!(values(&trace), "5 3 2100:01 0104\n");
}

#[test]
fn reads_that_bring_nothing() {
    assert_eq!(values(&read(&[(EXPEDITED, &[])])), "5 3 2100:01 -\n");
    let segmented = read(&[(INITIATE, &[9, 9]), (SEGMENT, &[]), (COMPLETE, &[])]);
    assert_eq!(values(&segmented), "9 3 2100:01 -\n");
}

#[test]
fn segments_without_what_the_initiate_carried() {
    let trace = read(&[(INITIATE, &[9]), (SEGMENT, &[0xAB]), (COMPLETE, &[0xC])]);
    assert_eq!(values(&trace), "9 3 2100:01 AB0C\n");
}

#[test]
fn what_has_no_line() {
    for replies in [
        &[(SEGMENT, &[1][..])][..],
        &[(COMPLETE, &[1])],
        &[(EXPEDITED | ABORT, &[1, 2, 3, 4])],
        &[(INITIATE, &[]), (EXPEDITED, &[1])],
        &[(INITIATE, &[]), (SEGMENT, &[1])],
    ] {
        assert_eq!(values(&read(replies)), "", "{replies:?}");
    }
    let write = record(&[1, NODE, 0x00, 0x21, 0x01, 2]);
    let opens = record(&[4, NODE, 0x01, 0x01]);
    let acknowledged = reply(NODE, 1, EXPEDITED, &[]);
    let trace = [write, ASK, opens, ASK].concat();
    assert_eq!(values(&[trace, acknowledged].concat()), "");
}

#[test]
fn of_4_096_bytes_and_one_more() {
    let data: Vec<u8> = (0..4_096).map(|place| place as u8).collect();
    let hex: String = data.iter().map(|byte| format!("{byte:02X}")).collect();
    let full = read(&[(EXPEDITED, &data)]);
    assert_eq!(values(&full), format!("261 3 2100:01 {hex}\n"));
    // What is refused is undone, and the same command is answered again.
    let more = read(&[(EXPEDITED, &[data, vec![1]].concat())]);
    assert_eq!(values(&more), "");
    let again = [more, reply(NODE, 1, EXPEDITED, &[7])].concat();
    assert_eq!(values(&again), "262 3 2100:01 07\n");
}

#[test]
fn two_nodes_at_a_time() {
    let trace = [
        opened(4),
        opened(255),
        reply(255, 1, EXPEDITED, &[5]),
        reply(4, 1, EXPEDITED, &[6]),
    ];
    assert_eq!(
        values(&trace.concat()),
        "9 255 2100:01 05\n10 4 2100:01 06\n"
    );
}

#[test]
fn where_the_trace_ends() {
    assert_eq!(values(b""), "");
    let trace = read(&[(EXPEDITED, &[])]);
    assert_eq!(values(&trace[..trace.len() - 1]), "");
    let short = [&trace[..], &[2; 31]].concat();
    assert_eq!(values(&short), "5 3 2100:01 -\n");
    for (ahead, lines) in [(65_530, "65535 3 2100:01 -\n"), (65_531, "")] {
        let late = [record(&[9]).repeat(ahead), trace.clone()].concat();
        assert_eq!(values(&late), lines, "{ahead}");
    }
}
