//! Document 01's lines, every letter, and lines that are none of the replay's; lines of `values`, and lines
//! that are none.

use super::{read, read_value, End, Line, Reason, Sent, Value, ValueLine};

const NOTHING: Line = Line {
    record: 1,
    operation: Some(1),
    refusal: 0,
    sent: None,
    ends: vec![],
};

fn end(node: u8, reason: Reason, delivered: usize) -> End {
    End {
        node,
        reason,
        delivered,
    }
}

#[test]
fn document_01s_lines() {
    assert_eq!(read(b"1 1 0 - - -"), Ok(NOTHING));
    let opening = Line {
        record: 2,
        operation: Some(6),
        sent: Some(Sent {
            node: 5,
            bytes: vec![0xFC, 0x01, 0, 0, 0, 0x01, 0, 0, 0, 0, 0, 0],
        }),
        ..NOTHING
    };
    assert_eq!(read(b"2 6 0 5 FC0100000001000000000000 -"), Ok(opening));
    let complete = Line {
        record: 5,
        operation: Some(4),
        ends: vec![end(5, Reason::Complete, 1)],
        ..NOTHING
    };
    assert_eq!(read(b"5 4 0 - - 5:C:1\r"), Ok(complete));
    let short = Line {
        operation: None,
        refusal: 11,
        ..NOTHING
    };
    assert_eq!(read(b"1 - 11 - - -"), Ok(short));
}

#[test]
fn every_letter() {
    let read = read(b"9 6 0 - - 0:C:0,1:X:1,2:O:2,3:S:3,4:P:4,5:T:5,255:U:4294967295");
    let ends: Vec<_> = Reason::ALL
        .into_iter()
        .zip(0..)
        .map(|(reason, place)| match place {
            6 => end(255, reason, 4_294_967_295),
            _ => end(place, reason, place.into()),
        })
        .collect();
    assert_eq!(read.unwrap().ends, ends);
    let names = Reason::ALL.map(Reason::name).join(" ");
    let paper = "Complete Cut OpenRefused Sequence PeerAborted Timeout BadSegment";
    assert_eq!(names, paper);
}

#[test]
fn lines_that_are_none_of_the_replays() {
    let fields = "six fields: record number, operation, refusal, node, bytes, ends";
    let ends = "ends such as 5:C:1, or -, last";
    for (text, expected) in [
        ("", fields),
        ("1 6 0 5 FC01", fields),
        ("1 6 0 5 FC01 - -", fields),
        ("x 6 0 5 FC01 -", "a record number first"),
        ("1 x 0 5 FC01 -", "an operation second"),
        ("1 6 - 5 FC01 -", "a refusal or 0 third"),
        ("1 6 0 - FC01 -", "a node with bytes, or neither"),
        ("1 6 0 5 - -", "a node with bytes, or neither"),
        ("1 6 0 256 FC01 -", "a node from 0 to 255 fourth"),
        ("1 6 0 5 FC0 -", "bytes in hex fifth"),
        ("1 6 0 5 FCx1 -", "bytes in hex fifth"),
        ("1 6 0 - - 5:C", ends),
        ("1 6 0 - - 5:C:1:1", ends),
        ("1 6 0 - - 256:C:1", ends),
        ("1 6 0 - - 5:A:1", ends),
        ("1 6 0 - - 5:C:-1", ends),
        ("1 6 0 - - 5:C:1,", ends),
    ] {
        assert_eq!(read(text.as_bytes()), Err(expected), "{text}");
    }
    assert_eq!(read(b"1 6 0 5 \xFF -"), Err(fields));
}

#[test]
fn lines_of_values() {
    let value = Value {
        node: 3,
        index: 0x2100,
        sub_index: 1,
        data: vec![0x01, 0x04],
    };
    let line = ValueLine { record: 5, value };
    assert_eq!(read_value(b"5 3 2100:01 0104"), Ok(line));
    let nothing = Value {
        node: 255,
        index: 0xFFFF,
        sub_index: 0xFF,
        data: vec![],
    };
    let line = ValueLine {
        record: 65_535,
        value: nothing,
    };
    assert_eq!(read_value(b"65535 255 FFFF:FF -\r"), Ok(line));
}

#[test]
fn lines_that_are_none_of_values() {
    let fields = "four fields: record number, node, object, data";
    let node = "a node from 0 to 255 second";
    let object = "an object such as 2100:01 third";
    let data = "data in hex, two digits a byte, or -, last";
    for (text, expected) in [
        ("", fields),
        ("5 3 2100:01", fields),
        ("5 3 2100:01 01 04", fields),
        ("1 1 0 - - -", fields),
        ("x 3 2100:01 0104", "a record number first"),
        ("- 3 2100:01 0104", "a record number first"),
        ("5 256 2100:01 0104", node),
        ("5 - 2100:01 0104", node),
        ("5 3 210001 0104", object),
        ("5 3 210:01 0104", object),
        ("5 3 2100:1 0104", object),
        ("5 3 02100:01 0104", object),
        ("5 3 2100:01: 0104", object),
        ("5 3 -:- 0104", object),
        ("5 3 2100:01 010", data),
        ("5 3 2100:01 01x4", data),
        ("5 3 2100:01 --", data),
    ] {
        assert_eq!(read_value(text.as_bytes()), Err(expected), "{text}");
    }
    assert_eq!(read_value(b"5 3 2100:01 \xFF"), Err(fields));
}
