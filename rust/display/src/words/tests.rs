//! Frames of every kind, with the words expected for each written out.

use super::{frame, Way};
use crate::row::{Row, Tone};
use ostelumiv::Refusal;

/// The sequence header before each command here, and its words.
const SEQUENCE: &str = "0207 0000";
const SEQUENCE_WORDS: &str = "send  1 request  receive  0 valid";

fn command_shown(way: Way, command: &str) -> Result<Row, Refusal> {
    let text = format!("{SEQUENCE} {command}");
    frame(
        way,
        &hex::bytes(text.as_bytes()).expect("the test's own hex"),
    )
}

/// A command whose row has one text ahead of the sequence header's words and another behind them.
fn shows(way: Way, command: &str, ahead: &str, behind: &str) {
    let row = command_shown(way, command).unwrap();
    let text = format!("{ahead}  {SEQUENCE_WORDS}  {behind}");
    assert_eq!(row.text, text.trim_end());
}

fn sent(command: &str, ahead: &str, behind: &str) {
    shows(Way::To(5), command, &format!("to     5  {ahead}"), behind);
}

fn answered(command: &str, ahead: &str, behind: &str) {
    shows(Way::From(5), command, &format!("from   5  {ahead}"), behind);
}

#[test]
fn reads_and_their_answers() {
    sent(
        "0009 0002 0400 0000 00210100",
        "ReadByIndex   Expedited  2100:01     4 bytes  transaction   9",
        "",
    );
    answered(
        "0009 1002 0200 0000 0104",
        "ReadByIndex   Expedited              2 bytes  transaction   9",
        "response, data 0104",
    );
    answered(
        "0009 5002 0000 0000 AD050000",
        "ReadByIndex   Initiate               0 bytes  transaction   9",
        "response, data size 1453",
    );
    sent(
        "0009 8002 0000 0000",
        "ReadByIndex   Segment                0 bytes  transaction   9",
        "",
    );
    answered(
        "0009 D002 0100 0000 7F",
        "ReadByIndex   Complete               1 byte   transaction   9",
        "response, data 7F",
    );
}

#[test]
fn writes() {
    sent(
        "00FF 0001 0400 0000 01210000",
        "WriteByIndex  Expedited  2101:00     4 bytes  transaction 255",
        "no data",
    );
    sent(
        "00FF C001 0200 0000 0104",
        "WriteByIndex  Complete               2 bytes  transaction 255",
        "data 0104",
    );
    sent(
        "00FF 0003 0600 0000 0021FFFF 0104",
        "WriteAllByIndex  Expedited  2100        6 bytes  transaction 255",
        "data 0104",
    );
    answered(
        "00FF 1001 0000 0000",
        "WriteByIndex  Expedited              0 bytes  transaction 255",
        "response",
    );
}

/// The first part of P4 and of P6, and a part as long as is shown.
#[test]
fn long_data_is_cut() {
    let shown = "5A".repeat(32);
    for (data_size, octets) in [(1453, "AD050000"), (2901, "550B0000")] {
        let data = "5A".repeat(1448);
        sent(
            &format!("0001 4001 AC05 0000 {octets} 00210100 {data}"),
            "WriteByIndex  Initiate   2100:01  1452 bytes  transaction   1",
            &format!("data size {data_size}, data {shown} and 1416 more"),
        );
    }
    sent(
        &format!("0001 8001 2000 0000 {shown}"),
        "WriteByIndex  Segment               32 bytes  transaction   1",
        &format!("data {shown}"),
    );
}

#[test]
fn multiple_reads() {
    sent(
        "0001 0032 0800 0000 00210100 01210200",
        "ReadMultipleParamByIndex  Expedited              8 bytes  transaction   1",
        "2100:01 2101:02",
    );
    sent(
        "0001 0032 0000 0000",
        "ReadMultipleParamByIndex  Expedited              0 bytes  transaction   1",
        "",
    );
}

#[test]
fn aborts() {
    sent(
        "0001 2000 0400 0000 00000405",
        "Nil           Abort                  4 bytes  transaction   1",
        "code 05040000",
    );
    answered(
        "0001 3001 0300 0000 000004",
        "WriteByIndex  Abort                  3 bytes  transaction   1",
        "response, no code",
    );
}

/// Where the direction is not known, the mark alone tells an answer from a request.
#[test]
fn an_answer_names_no_object() {
    let read = "0009 0002 0400 0000 00210100";
    let named = "ReadByIndex   Expedited  2100:01     4 bytes  transaction   9";
    shows(Way::Unknown, read, &format!("frame     {named}"), "");
    let unnamed = "ReadByIndex   Expedited              4 bytes  transaction   9";
    answered(read, unnamed, "data 00210100");
    let marked = "0009 1002 0400 0000 00210100";
    let words = "response, data 00210100";
    shows(Way::Unknown, marked, &format!("frame     {unnamed}"), words);
    answered(
        "0009 0002 0200 0000 0104",
        "ReadByIndex   Expedited              2 bytes  transaction   9",
        "data 0104",
    );
}

/// Every state that the two octets can have.
#[test]
fn states() {
    for (octets, words) in [
        ("FC00", "send  0 none     receive 63 none"),
        ("FDFD", "send 63 init     receive 63 init"),
        ("FE02", "send  0 valid    receive 63 valid"),
        ("03FF", "send 63 request  receive  0 error"),
    ] {
        let text = format!("{octets} 0000 0001 0001 0400 0000 00210100");
        let row = frame(Way::To(5), &hex::bytes(text.as_bytes()).unwrap()).unwrap();
        assert!(row.text.contains(&format!("  {words}  ")), "{}", row.text);
    }
}

#[test]
fn tones() {
    let (write, abort) = ("0001 0001 0400 0000 00210100", "0001 2000 0000 0000");
    for (way, command, tone) in [
        (Way::Unknown, write, Tone::Plain),
        (Way::To(5), write, Tone::Plain),
        (Way::From(5), write, Tone::Answer),
        (Way::Unknown, abort, Tone::Trouble),
        (Way::To(5), abort, Tone::Trouble),
        (Way::From(5), abort, Tone::Trouble),
    ] {
        assert_eq!(command_shown(way, command).unwrap().tone, tone);
    }
}

#[test]
fn zeros_after_the_command_are_not_shown() {
    let ahead = "Nil           Expedited              0 bytes  transaction   1";
    sent("0001 0000 0000 0000 00000000", ahead, "");
}

#[test]
fn octets_after_the_command_are_told() {
    let told = "4 octets after it not shown";
    sent(
        "0001 0000 0000 0000 00000001",
        "Nil           Expedited              0 bytes  transaction   1",
        told,
    );
    sent(
        "0001 4001 0500 0000 09000000 0021010005 FFFFFFFF",
        "WriteByIndex  Initiate   2100:01     5 bytes  transaction   1",
        &format!("data size 9, data 05, {told}"),
    );
    let row = command_shown(Way::To(5), "0001 0000 0000 0000 FF").unwrap();
    assert_eq!(row.tone, Tone::Trouble);
}

#[test]
fn refused() {
    let refused = |command| command_shown(Way::To(5), command);
    let short = Err(Refusal::BufferTooShort);
    assert_eq!(frame(Way::Unknown, &[]), short);
    assert_eq!(frame(Way::Unknown, &[0x02, 0x07, 0x00, 0x00]), short);
    assert_eq!(refused("0001 0001 0700 0000 002101000104"), short);
    let unknown = Err(Refusal::InvalidEnumValue);
    assert_eq!(refused("0001 0071 0000 0000"), unknown);
    let payload = Err(Refusal::SdoInvalidCommandPayload);
    assert_eq!(refused("0001 0001 0300 0000 002101"), payload);
    assert_eq!(refused("0001 0032 0500 0000 0021010001"), payload);
}
