//! The capture of document 01's run, octet by octet; frames at both ends of their lengths; lines that
//! are none of the replay's.

use capture::{capture, Bad, Flags};

const DOCUMENT_01: &str = "\
1 1 0 - - -
2 6 0 5 FC0100000001000000000000 -
3 4 0 - - -
4 6 0 5 020700000001000106000000002101000104 -
5 4 0 - - 5:C:1
";

/// Magic, version 2.4, two zeros, longest frame, Ethernet.
const FILE_HEAD: &str = "D4C3B2A1 0200 0400 00000000 00000000 FFFF0000 01000000";
/// Destination, source, type of an Ethernet frame.
const ETHERNET: &str = "01111E000004 0200000000F0 88AB";

fn bytes(hex: &str) -> Vec<u8> {
    hex::bytes(hex.as_bytes()).expect("the test's own hex")
}

fn captured(lines: &str) -> Vec<u8> {
    captured_with(lines, Flags::AsSent)
}

fn captured_with(lines: &str, flags: Flags) -> Vec<u8> {
    capture(lines.as_bytes(), flags).unwrap_or_else(|bad| panic!("{bad}"))
}

/// Why the lines are not captured.
fn bad(lines: &[u8]) -> Option<Bad> {
    capture(lines, Flags::AsSent).err()
}

#[test]
fn document_01s_run() {
    let mut expected = bytes(FILE_HEAD);
    for (record, sent, padding) in [
        ("02000000", "FC010000 0001000000000000", 30),
        ("04000000", "02070000 0001000106000000 00210100 0104", 24),
    ] {
        expected.extend(bytes(&format!("{record} 00000000 3C000000 3C000000")));
        expected.extend(bytes(&format!("{ETHERNET} 06 05 F0 05 {sent}")));
        expected.extend(vec![0; padding]);
    }
    assert_eq!(captured(DOCUMENT_01), expected);
}

#[test]
fn the_length_of_a_frame() {
    // 18 bytes come before what was sent, 24 and 16 more before the frame.
    for (sent, frame) in [(41, 60), (42, 60), (43, 61), (1468, 1486), (1496, 1514)] {
        let line = format!("65535 6 0 255 {} -\n", "5A".repeat(sent));
        let file = captured(&line);
        assert_eq!(file.len(), 24 + 16 + frame);
        assert_eq!(file[24..28], [0xFF, 0xFF, 0, 0]);
        assert_eq!(file[32..36], u32::to_le_bytes(frame as u32));
        assert_eq!(file[40 + 15], 255);
        assert!(file[40 + 18..][..sent].iter().all(|&byte| byte == 0x5A));
    }
}

/// A timeout's abort: of the whole file one octet is another.
#[test]
fn published_flags() {
    let line = "8 5 0 5 02080000000120000400000000000405 5:T:0\n";
    let [sent, published] =
        [Flags::AsSent, Flags::Published].map(|flags| captured_with(line, flags));
    let place = 24 + 16 + 18 + 6;
    let mut expected = sent.clone();
    expected[place] = 0x40;
    assert_eq!(sent[place], 0x20);
    assert_eq!(published, expected);
}

#[test]
fn lines_that_send_nothing() {
    for lines in [
        "",
        "\n",
        "1 - 11 - - -\n",
        "1 200 10 - - -",
        "7 6 0 - - 1:C:0,2:X:9\n",
        "\u{FEFF}1 1 0 - - -\r\n",
    ] {
        assert_eq!(captured(lines), bytes(FILE_HEAD));
    }
}

#[test]
fn lines_that_are_none_of_the_replays() {
    let lines = format!("{DOCUMENT_01}\n1 6 0 5 FC0 -\n");
    let (line, expected) = (7, "bytes in hex fifth");
    assert_eq!(bad(lines.as_bytes()), Some(Bad { line, expected }));
    let (line, expected) = (1, "a text in UTF-8, not UTF-16");
    assert_eq!(bad(b"\xFF\xFE1\0"), Some(Bad { line, expected }));
    let long = format!("1 6 0 5 {} -", "00".repeat(1_497));
    let (line, expected) = (1, "no more bytes than an Ethernet frame takes");
    assert_eq!(bad(long.as_bytes()), Some(Bad { line, expected }));
}
