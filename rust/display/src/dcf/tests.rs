//! DCFs that are whole, cut, miscounted or none, with the rows of each written out.

use super::{rows, Bad, MOST_SHOWN};
use crate::row::Tone;
use crate::run_dcf;
use ostelumiv::Refusal;
use std::io;

/// The DCF of traces/dcf.txt: a count, and three entries.
const COUNT: &str = "03000000";
const ENTRIES: &str = "002101 02000000 ED03  012100 01000000 01  022102 04000000 10270000";

fn bytes(text: &str) -> Vec<u8> {
    hex::bytes(text.as_bytes()).expect("the test's own hex")
}

fn shown(dcf: &[u8]) -> String {
    let rows = rows(dcf).unwrap();
    rows.into_iter().map(|row| row.text + "\n").collect()
}

fn shows(dcf: &str, expected: &str) {
    assert_eq!(shown(&bytes(dcf)), expected, "{dcf}");
}

/// A DCF of one entry of 2100:01 that makes it as long as this.
fn of_length(length: usize) -> Vec<u8> {
    let size = u32::try_from(length - 11).unwrap().to_le_bytes();
    let mut dcf = bytes("01000000 002101");
    dcf.extend(size);
    dcf.resize(length, 0xFF);
    dcf
}

#[test]
fn whole() {
    shows(
        &format!("{COUNT} {ENTRIES}"),
        "\
count 3, 32 bytes
    1  at     4  2100:01     2 bytes  unsigned 1005, signed 1005
    2  at    13  2101:00     1 byte   unsigned 1, signed 1
    3  at    21  2102:02     4 bytes  unsigned 10000, signed 10000
readable: 3 of 3 entries, 32 bytes; nothing is dropped
",
    );
}

#[test]
fn data_of_each_kind() {
    shows(
        "04000000 012100 00000000  081000 0A000000 44657074682063656C6C \
         FEFFFF 05000000 0001020304  022101 02000000 ECFF",
        "\
count 4, 49 bytes
    1  at     4  2101:00     0 bytes  no data
    2  at    11  1008:00    10 bytes  text \"Depth cell\"
    3  at    28  FFFE:FF     5 bytes  data 00010203 04
    4  at    40  2102:01     2 bytes  unsigned 65516, signed -20
readable: 4 of 4 entries, 49 bytes; nothing is dropped
",
    );
}

#[test]
fn no_entries() {
    shows(
        "00000000",
        "\
count 0, 4 bytes
readable: 0 of 0 entries, 4 bytes; nothing is dropped
",
    );
}

/// The last entry as traces/cut-dcf.txt has it, one byte short; with fewer of its data; and with a size that is wrong.
#[test]
fn cut_within_data() {
    for (entry, words, end) in [
        (
            "022102 04000000 102700",
            "not readable: its size says 4 bytes, and 3 are left",
            "1 of 2 entries, 12 bytes; 10 bytes are dropped, from offset 12 on",
        ),
        (
            "022102 04000000 10",
            "not readable: its size says 4 bytes, and 1 is left",
            "1 of 2 entries, 12 bytes; 8 bytes are dropped, from offset 12 on",
        ),
        (
            "022102 01000000",
            "not readable: its size says 1 byte, and nothing is left",
            "1 of 2 entries, 12 bytes; 7 bytes are dropped, from offset 12 on",
        ),
        (
            "022102 FFFFFFFF 10270000",
            "not readable: its size says 4294967295 bytes, and 4 are left",
            "1 of 2 entries, 12 bytes; 11 bytes are dropped, from offset 12 on",
        ),
    ] {
        let dcf = bytes(&format!("02000000 012100 01000000 01 {entry}"));
        let expected = format!(
            "count 2, {} bytes
    1  at     4  2101:00     1 byte   unsigned 1, signed 1
    2  at    12  2102:02  {words}
readable: {end}
",
            dcf.len()
        );
        assert_eq!(shown(&dcf), expected);
    }
}

/// The object is shown where its three bytes are there.
#[test]
fn cut_ahead_of_data() {
    for (entry, length, object, left, dropped) in [
        ("022102 040000", 10, "2102:02", "6 are left", "6 bytes are"),
        ("022102", 7, "2102:02", "3 are left", "3 bytes are"),
        ("0221", 6, "       ", "2 are left", "2 bytes are"),
        ("02", 5, "       ", "1 is left", "1 byte is"),
    ] {
        let expected = format!(
            "count 1, {length} bytes
    1  at     4  {object}  not readable: it needs 7 bytes ahead of its data, and {left}
readable: 0 of 1 entry, 4 bytes; {dropped} dropped, from offset 4 on
"
        );
        shows(&format!("01000000 {entry}"), &expected);
    }
}

/// Between two entries, or the count is too large: no byte is there to be dropped.
#[test]
fn cut_ahead_of_an_entry() {
    shows(
        "02000000 012100 01000000 01",
        "\
count 2, 12 bytes
    1  at     4  2101:00     1 byte   unsigned 1, signed 1
    2  at    12           not readable: it needs 7 bytes ahead of its data, and nothing is left
readable: 1 of 2 entries, 12 bytes; no byte is dropped, but 1 counted entry is missing
",
    );
}

#[test]
fn the_highest_count() {
    shows(
        "FFFFFFFF 012100 01000000 01 022102 05000000 10270000",
        "\
count 4294967295, 23 bytes
    1  at     4  2101:00     1 byte   unsigned 1, signed 1
    2  at    12  2102:02  not readable: its size says 5 bytes, and 4 are left
readable: 1 of 4294967295 entries, 12 bytes; 11 bytes are dropped, from offset 12 on
",
    );
}

#[test]
fn bytes_behind_the_last_counted_entry() {
    for (behind, stand, dropped) in [
        ("00", "1 byte stands", "1 byte is"),
        ("012100 0200", "5 bytes stand", "5 bytes are"),
        ("012100 02000000 01", "8 bytes stand", "8 bytes are"),
        // Zeros that fill up a file are no entry, though the codec could read one.
        ("0000000000000000", "8 bytes stand", "8 bytes are"),
    ] {
        let dcf = bytes(&format!("01000000 002101 02000000 ED03 {behind}"));
        let expected = format!(
            "count 1, {} bytes
    1  at     4  2100:01     2 bytes  unsigned 1005, signed 1005
    -  at    13           not counted: {stand} behind the last counted entry
readable: 1 of 1 entry, 13 bytes; {dropped} dropped, from offset 13 on
",
            dcf.len()
        );
        assert_eq!(shown(&dcf), expected);
    }
}

#[test]
fn a_count_that_may_be_too_small() {
    shows(
        &format!("01000000 {ENTRIES}"),
        "\
count 1, 32 bytes
    1  at     4  2100:01     2 bytes  unsigned 1005, signed 1005
    -  at    13  2101:00  not counted: 19 bytes stand behind the last counted entry, first of them a whole entry: the count may be too small
readable: 1 of 1 entry, 13 bytes; 19 bytes are dropped, from offset 13 on
",
    );
    shows(
        &format!("00000000 {ENTRIES}"),
        "\
count 0, 32 bytes
    -  at     4  2100:01  not counted: 28 bytes stand behind the count, first of them a whole entry: the count may be too small
readable: 0 of 0 entries, 4 bytes; 28 bytes are dropped, from offset 4 on
",
    );
}

/// Each beginning of the whole DCF: what is kept ends where its last whole entry does, and the rest is dropped.
#[test]
fn every_beginning() {
    let whole = bytes(&format!("{COUNT} {ENTRIES}"));
    for length in 4..=whole.len() {
        let (entries, kept) = match length {
            ..13 => (0, 4),
            13..21 => (1, 13),
            21..32 => (2, 21),
            _ => (3, 32),
        };
        let dropped = match (length - kept, entries) {
            (0, 3) => "nothing is dropped".into(),
            (0, 2) => "no byte is dropped, but 1 counted entry is missing".into(),
            (0, _) => format!(
                "no byte is dropped, but {} counted entries are missing",
                3 - entries
            ),
            (1, _) => format!("1 byte is dropped, from offset {kept} on"),
            (more, _) => format!("{more} bytes are dropped, from offset {kept} on"),
        };
        let end = format!("\nreadable: {entries} of 3 entries, {kept} bytes; {dropped}\n");
        let picture = shown(&whole[..length]);
        assert!(picture.ends_with(&end), "{picture}");
        let cut_rows = picture.matches("not readable").count();
        assert_eq!(cut_rows, usize::from(length < whole.len()), "{picture}");
    }
}

/// Both sides of what a start takes. All data are shown, as those of a value are.
#[test]
fn a_long_dcf() {
    let data = |bytes: usize| hex::text(&vec![0xFF; bytes]);
    let groups = ["FFFFFFFF"; 1_021].join(" ");
    let expected = format!(
        "count 1, 4096 bytes
    1  at     4  2100:01  4085 bytes  data {groups} {}
readable: 1 of 1 entry, 4096 bytes; nothing is dropped
",
        data(1)
    );
    assert_eq!(shown(&of_length(4_096)), expected);
    let expected = format!(
        "count 1, 4097 bytes
longer than 4096 bytes: a start or salvage of it is refused 7 NoRoom
    1  at     4  2100:01  4086 bytes  data {groups} {}
readable: 1 of 1 entry, 4097 bytes
",
        data(2)
    );
    assert_eq!(shown(&of_length(4_097)), expected);
}

#[test]
fn too_short() {
    for dcf in ["", "03", "0300", "030000"] {
        assert_eq!(rows(&bytes(dcf)), Err(Bad::Refused(Refusal::DcfTooShort)));
    }
}

fn run(input: &mut impl io::Read) -> (String, bool) {
    let mut output = Vec::new();
    let shown = run_dcf(false, input, &mut output).unwrap();
    (String::from_utf8(output).unwrap(), shown)
}

#[test]
fn what_cannot_be_shown_is_told() {
    let told = "refused 5 DcfTooShort\n".into();
    assert_eq!(run(&mut &b"\x03\0\0"[..]), (told, false));
    let (picture, shown) = run(&mut &of_length(MOST_SHOWN)[..]);
    assert!(picture.starts_with("count 1, 65536 bytes\nlonger than 4096 bytes: "));
    assert!(shown);
    let told = "expected a DCF of at most 65536 bytes; found more\n";
    let too_long = of_length(MOST_SHOWN + 1);
    assert_eq!(run(&mut &too_long[..]), (told.into(), false));
    assert_eq!(run(&mut io::repeat(0)), (told.into(), false));
}

/// What a technician may give in place of the bytes.
#[test]
fn hex_is_shown_and_doubted() {
    assert_eq!(
        shown(b"03000000 002101 02000000 ED03\n"),
        "\
count 808465200, 30 bytes
this looks like a text in hex; a DCF is given as its bytes
    1  at     4  3030:30  not readable: its size says 808460336 bytes, and 19 are left
readable: 0 of 808465200 entries, 4 bytes; 26 bytes are dropped, from offset 4 on
"
    );
}

#[test]
fn tones() {
    let tones = |dcf: &[u8]| -> Vec<Tone> {
        let rows = rows(dcf).unwrap();
        rows.iter().map(|row| row.tone).collect()
    };
    let (plain, good, trouble) = (Tone::Plain, Tone::Good, Tone::Trouble);
    let one = "01000000 012100 01000000 01";
    assert_eq!(tones(&bytes(one)), [plain, plain, good]);
    let behind = bytes(&format!("{one} 00"));
    assert_eq!(tones(&behind), [plain, plain, trouble, trouble]);
    let cut = bytes("01000000 012100 01000000");
    assert_eq!(tones(&cut), [plain, trouble, trouble]);
    assert_eq!(tones(&bytes("01000000")), [plain, trouble, trouble]);
    assert_eq!(tones(&of_length(4_097)), [plain, trouble, plain, trouble]);
}
