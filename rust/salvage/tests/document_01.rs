//! The repository's salvage of document 01's DCFs, with lines and bytes written out by hand.

#![cfg(has_oracle)]

use salvage_oracle::repair::repair;

/// Document 01's P7: an entry with two bytes, and an empty one.
const P7: [u8; 20] = [
    2, 0, 0, 0, 0x00, 0x21, 1, 2, 0, 0, 0, 0x01, 0x04, 0x01, 0x21, 0, 0, 0, 0, 0,
];
/// Its first entry alone.
const FIRST: [u8; 13] = [1, 0, 0, 0, 0x00, 0x21, 1, 2, 0, 0, 0, 0x01, 0x04];
/// P9: no entry.
const P9: [u8; 4] = [0; 4];

/// What is written of a DCF, and that the repository sends the same of it once it is repaired.
fn salvaged(dcf: &[u8]) -> (String, Vec<u8>) {
    let answer = repair(dcf);
    if let Ok(repaired) = &answer.0 {
        assert!(repaired.is_sent_like(dcf), "{dcf:?}");
        // What was repaired needs no repair.
        assert_eq!(repair(&repaired.bytes).bytes(), repaired.bytes);
    }
    (answer.line(), answer.bytes().to_vec())
}

fn expect(dcf: &[u8], line: &str, bytes: &[u8]) {
    let expected = (format!("{line}\n"), bytes.to_vec());
    assert_eq!(salvaged(dcf), expected, "{dcf:?}");
}

#[test]
fn whole() {
    expect(&P7, "2 2 0 -", &P7);
    expect(&FIRST, "1 1 0 -", &FIRST);
    expect(&P9, "0 0 0 -", &P9);
}

#[test]
fn cut_at_every_length() {
    for len in 0..4 {
        expect(&P7[..len], "5", &[]);
    }
    expect(&P7[..4], "2 0 0 -", &P9);
    for len in 5..13 {
        expect(&P7[..len], &format!("2 0 {} 4", len - 4), &P9);
    }
    expect(&P7[..13], "2 1 0 -", &FIRST);
    // P8 is the last of them.
    for len in 14..20 {
        expect(&P7[..len], &format!("2 1 {} 13", len - 13), &FIRST);
    }
}

#[test]
fn a_count_that_is_off() {
    for (count, line, bytes) in [
        ([0, 0, 0, 0], "0 0 16 4", &P9[..]),
        ([1, 0, 0, 0], "1 1 7 13", &FIRST),
        ([3, 0, 0, 0], "3 2 0 -", &P7),
        ([2, 1, 0, 0], "258 2 0 -", &P7),
        ([0xFF; 4], "4294967295 2 0 -", &P7),
    ] {
        let mut dcf = P7;
        dcf[..4].copy_from_slice(&count);
        expect(&dcf, line, bytes);
    }
}

#[test]
fn a_size_that_is_off() {
    // The data of the first entry would take the second along, up to its last byte and beyond.
    let mut taken = P7;
    taken[7] = 9;
    let one = [&[1, 0, 0, 0], &taken[4..]].concat();
    expect(&taken, "2 1 0 -", &one);
    for size in [
        [10, 0, 0, 0],
        [0xFF; 4],
        [0xF5, 0xFF, 0xFF, 0xFF],
        [0, 0, 0, 0x80],
    ] {
        let mut dcf = P7;
        dcf[7..11].copy_from_slice(&size);
        expect(&dcf, "2 0 16 4", &P9);
    }
}

#[test]
fn bytes_after() {
    let after = [&P7[..], &[9, 9, 9]].concat();
    expect(&after, "2 2 3 20", &P7);
}

#[test]
fn at_the_limit() {
    // An entry of 4,085 bytes of data, 0x0FF5, goes out in three parts.
    let head = [1, 0, 0, 0, 0x00, 0x21, 1, 0xF5, 0x0F, 0, 0];
    let full = [&head[..], &[7; 4_085]].concat();
    expect(&full, "1 1 0 -", &full);
    expect(&full[..4_095], "1 0 4091 4", &P9);
    expect(&[&full[..], &[7]].concat(), "7", &[]);
}
