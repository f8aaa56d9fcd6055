//! The oracle as a program: document 01's run and edges, byte for byte.

#![cfg(has_oracle)]

use std::process::Command;

const RECORD: usize = 32;

/// What the program prints to an input.
fn printed(mode: &str, input: &[u8]) -> String {
    let mut command = Command::new(env!("CARGO_BIN_EXE_replay_oracle"));
    let output = program::run(command.arg(mode), input).unwrap();
    assert!(output.status.success());
    String::from_utf8(output.stdout).unwrap()
}

/// A record that begins with these bytes and has zeros after them.
fn record(bytes: &[u8]) -> [u8; RECORD] {
    let mut record = [0; RECORD];
    record[..bytes.len()].copy_from_slice(bytes);
    record
}

/// Gathers of sixteen bytes, and then an operation on a node with the rest.
fn gathered(operation: u8, node: u8, length: usize) -> Vec<u8> {
    let mut trace = record(&[7, 0, 0, 0, 0, 16]).repeat(length / 16);
    trace.extend(record(&[operation, node, 0, 0, 0, (length % 16) as u8]));
    trace
}

#[test]
fn the_run() {
    let mut write = record(&[0x01, 0x05, 0x00, 0x21, 0x01, 0x02]);
    write[16..18].copy_from_slice(&[0x01, 0x04]);
    let trace = [
        write,
        record(&[0x06]),
        record(&[0x04, 0x05, 0x01, 0x01]),
        record(&[0x06]),
        record(&[0x04, 0x05, 0x06, 0x06]),
    ];
    let expected = "\
1 1 0 - - -
2 6 0 5 FC0100000001000000000000 -
3 4 0 - - -
4 6 0 5 020700000001000106000000002101000104 -
5 4 0 - - 5:C:1
";
    assert_eq!(printed("plain", &trace.concat()), expected);
}

#[test]
fn empty_input() {
    assert_eq!(printed("plain", &[]), "");
    assert_eq!(printed("state", &[0; 11]), "");
}

#[test]
fn short_records() {
    for length in [1, 31] {
        assert_eq!(printed("plain", &vec![6; length]), "1 - 11 - - -\n");
        let later = [&record(&[6])[..], &vec![6; length]].concat();
        assert_eq!(printed("plain", &later), "1 6 0 - - -\n2 - 11 - - -\n");
    }
}

#[test]
fn bytes_past_the_last_record() {
    let mut trace = record(&[9]).repeat(65_536);
    trace.truncate(65_535 * RECORD + 7);
    let lines = printed("plain", &trace);
    assert_eq!(lines.lines().count(), 65_535);
    assert!(lines.ends_with("\n65535 9 10 - - -\n"));
}

#[test]
fn the_longest_write() {
    let last = |length| {
        let lines = printed("plain", &gathered(1, 3, length));
        lines.lines().last().unwrap().to_string()
    };
    assert_eq!(last(4_092), "256 1 0 - - -");
    assert_eq!(last(4_093), "256 1 7 - - -");
}

#[test]
fn the_ninth_node() {
    let trace: Vec<u8> = (0..9).flat_map(|node| record(&[2, node * 31])).collect();
    let lines = printed("plain", &trace);
    let refusals: Vec<_> = lines
        .lines()
        .map(|line| line.split(' ').nth(2).unwrap())
        .collect();
    assert_eq!(refusals, ["0", "0", "0", "0", "0", "0", "0", "0", "6"]);
}

#[test]
fn retries_0_and_a_tick_at_the_deadline_before_any_send() {
    // Timeout 15,000 milliseconds, retries 0; the ticks are just before 15,000,000 and at it.
    let mut trace = vec![1, 0x98, 0x3A, 0, 0, 1, 0, 0, 0, 0, 0];
    trace.extend(record(&[2, 5]));
    trace.extend(record(&[5, 0, 0, 0, 0, 0, 0xBF, 0xE1, 0xE4]));
    trace.extend(record(&[5, 0, 0, 0, 0, 0, 0xC0, 0xE1, 0xE4]));
    let expected = "\
1 2 0 - - -
= 15000000 5:1:1:0:63:15000000:0:0:0:2166136261 -
2 5 0 - - -
= 15000000 5:1:1:0:63:15000000:0:0:0:2166136261 -
3 5 0 5 FE000000000120000400000000000405 5:T:0
= - - -
";
    assert_eq!(printed("state", &trace), expected);
}
