//! Bad lines: where the fault is, what was expected there and what was found.

/// All that is told of a text.
fn told(text: &str) -> Vec<String> {
    let bad = trace::write(text.as_bytes()).expect_err(text);
    bad.iter().map(ToString::to_string).collect()
}

/// Lines, and what is told of each.
const BAD: &[(&str, &str)] = &[
    (
        "wirte 5 2100:01",
        "column 1: expected an operation: write, read, dcf, reply, tick, ask, gather \
         (or record, short); found 'wirte'",
    ),
    (
        "write",
        "column 6: expected a node, 0 to 255; found the end of the line",
    ),
    (
        "  write 256 2100:01",
        "column 9: expected a node, 0 to 255; found '256'",
    ),
    (
        "read +5 2100:01",
        "column 6: expected a node, 0 to 255; found '+5'",
    ),
    (
        "read 5 2100:1",
        "column 8: expected an object such as 2100:01, index and sub-index in hex; \
         found '2100:1'",
    ),
    (
        "read 5 2100:01 00",
        "column 16: expected 'at' or the end of the line; found '00'",
    ),
    (
        "write 5 2100:01 0O04",
        "column 18: expected a hex digit, two a byte; found 'O'",
    ),
    (
        "write 5 2100:01 01 040",
        "column 23: expected a hex digit, two a byte; found the end of the word",
    ),
    (
        "write 5 2100:01 é",
        "column 17: expected a hex digit, two a byte; found 'é'",
    ),
    (
        "write 5 2100:01 on 5",
        "column 17: expected data in hex, 'at' or the end of the line; found 'on'",
    ),
    (
        "tick at",
        "column 8: expected a time in microseconds below 2^64, such as 15000000, or with its \
         unit: 15000000us, 15000ms, 15s; found the end of the line",
    ),
    (
        "tick at 18446744073709551616",
        "column 9: expected a time in microseconds below 2^64, such as 15000000, or with its \
         unit: 15000000us, 15000ms, 15s; found '18446744073709551616'",
    ),
    (
        "tick at 5min",
        "column 9: expected a time in microseconds below 2^64, such as 15000000, or with its \
         unit: 15000000us, 15000ms, 15s; found '5min'",
    ),
    (
        "tick at 15 s",
        "column 12: expected the unit right behind its number, as in 15s; found 's'",
    ),
    (
        "tick at 5 6",
        "column 11: expected the end of the line; found '6'",
    ),
    (
        "reply 5 01 01",
        "column 9: expected 'answers' and a sequence number, or 'seq' and two octets; \
         found '01'",
    ),
    (
        "reply 5 seq 0101",
        "column 13: expected an octet, two hex digits; found '0101'",
    ),
    (
        "reply 5 answers 64 number 0",
        "column 17: expected a sequence number, 0 to 63; found '64'",
    ),
    (
        "reply 5 answers 0 init",
        "column 19: expected 'number' and the reply's own sequence number; found 'init'",
    ),
    (
        "reply 5 answers 0 number 0 init/initt",
        "column 28: expected states: 'none', 'init' or 'valid' for both, or two with / between \
         them, on receive 'none', 'init', 'valid' or 'error', on send 'none', 'init', 'valid' or \
         'request'; found 'init/initt'",
    ),
    (
        "reply 5 answers 0 number 0 request/valid",
        "column 28: expected states: 'none', 'init' or 'valid' for both, or two with / between \
         them, on receive 'none', 'init', 'valid' or 'error', on send 'none', 'init', 'valid' or \
         'request'; found 'request/valid'",
    ),
    (
        "reply 5 answers 0 number 0 error",
        "column 28: expected states: 'none', 'init' or 'valid' for both, or two with / between \
         them, on receive 'none', 'init', 'valid' or 'error', on send 'none', 'init', 'valid' or \
         'request'; found 'error'",
    ),
    (
        "reply 5 seq 01 01 init/valid",
        "column 19: expected a kind ('expedited', 'initiate', 'segment', 'complete'), \
         'response', 'abort', data in hex or 'at', in this order and each if wanted; found \
         'init/valid'",
    ),
    (
        "reply 5 answers 0 number 0 complete init",
        "column 37: expected states such as 'init', a kind ('expedited', 'initiate', \
         'segment', 'complete'), 'response', 'abort', data in hex or 'at', in this order and \
         each if wanted; found 'init'",
    ),
    (
        "reply 5 answers 0 number 0 abort 0504",
        "column 34: expected an abort code of 8 hex digits, 'data', 'at' or the end of the \
         line; found '0504'",
    ),
    (
        "dcf 5 cuont 3",
        "column 7: expected 'count' and entries, data in hex, 'at' or the end of the line; \
         found 'cuont'",
    ),
    (
        "dcf 5 count 4294967296",
        "column 13: expected the number of entries, below 2^32; found '4294967296'",
    ),
    (
        "dcf 5 count 1 2100:01",
        "column 15: expected an entry such as 2100:01=0104, 'at' or the end of the line; \
         found '2100:01'",
    ),
    (
        "dcf 5 count 1 2100:01=010",
        "column 26: expected a hex digit, two a byte; found the end of the word",
    ),
    (
        "record 0102 # too few",
        "column 8: expected 64 hex digits; found 4 digits",
    ),
    (
        "short",
        "column 6: expected 2 to 62 hex digits; found 0 digits",
    ),
    (
        "short 01 at 5",
        "column 10: expected the end of the line; found 'at'",
    ),
    (
        "\u{1}abcdefghijklmnopqrstuvwxyz",
        "column 1: expected an operation: write, read, dcf, reply, tick, ask, gather \
         (or record, short); found '\\u{1}abcdefghijklmnopqrstuvw...'",
    ),
];

#[test]
fn what_is_told() {
    for (line, fault) in BAD {
        assert_eq!(told(line), [format!("line 1, {fault}")]);
    }
}

#[test]
fn every_bad_line_is_told() {
    let told = told("ask\nask 5\n# no fault\n\ntick now\nask\n");
    assert_eq!(told.len(), 2);
    assert!(told[0].starts_with("line 2, column 5: "));
    assert!(told[1].starts_with("line 5, column 6: "));
}

#[test]
fn lines_that_end_in_cr_alone() {
    let expected = "line 1, column 10: expected lines that end in LF or CRLF; found CR alone";
    assert_eq!(told("# comment\rask\rask\r"), [expected]);
}

#[test]
fn a_text_in_utf_16() {
    for text in [&b"\xFF\xFEa\0s\0k\0\n\0"[..], b"\xFE\xFF\0a\0s\0k\0\n"] {
        let bad = trace::write(text).unwrap_err();
        let told: Vec<_> = bad.iter().map(ToString::to_string).collect();
        let expected = "line 1, column 1: expected a text in UTF-8; found UTF-16";
        assert_eq!(told, [expected]);
    }
}

#[test]
fn nothing_after_a_short_record() {
    let told = told("ask\nshort 01\n\n# a comment\nask");
    let expected = "line 5, column 1: expected nothing after a short record; found 'ask'";
    assert_eq!(told, [expected]);
}
