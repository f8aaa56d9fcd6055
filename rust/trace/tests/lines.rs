//! The notation, operation by operation: what a line gives, and how its records are shown.

/// The records that a text gives, in hex, a line each.
fn records(text: &str) -> String {
    let trace = trace::write(text.as_bytes()).unwrap_or_else(|bad| panic!("{text}: {bad:?}"));
    let hex = trace.chunks(32).map(|record| hex::text(record) + "\n");
    hex.collect()
}

/// Two texts say the same, and the second is how it is shown.
fn shown(text: &str, lines: &str) {
    let trace = trace::write(text.as_bytes()).unwrap_or_else(|bad| panic!("{text}: {bad:?}"));
    assert_eq!(trace::read(&trace), lines, "{text}");
    assert_eq!(trace::write(lines.as_bytes()), Ok(trace), "{lines}");
}

/// A record of these first 16 bytes and data, both filled up with zeros.
fn record(head: &str, data: &str) -> String {
    format!("{head:0<32}{data:0<32}\n")
}

#[test]
fn the_bytes_of_each_operation() {
    let time = "at 72623859790382856";
    let bytes = "0807060504030201";
    for (line, head, data) in [
        ("write 5 2100:01 0104", "010500210102", "0104"),
        ("read 255 FFFE:FF", "02FFFEFFFF00", ""),
        ("dcf 9 0000", "030900000002", "0000"),
        ("reply 7 seq FC 01 0102", "0407FC010002", "0102"),
        ("tick", "050000000000", ""),
        ("ask", "060000000000", ""),
        ("gather AABBCC", "070000000003", "AABBCC"),
    ] {
        let expected = record(&format!("{head}{bytes}"), data);
        assert_eq!(records(&format!("{line} {time}")), expected);
    }
    let expected = record(&format!("040500000000{bytes}F3"), "");
    let line = format!("reply 5 seq 00 00 flags F3 {time}");
    assert_eq!(records(&line), expected);
}

#[test]
fn long_data_are_gathered() {
    let sixteen = "000102030405060708090A0B0C0D0E0F";
    shown(
        &format!("write 5 2100:01 {sixteen}"),
        &format!("write 5 2100:01 {sixteen}\n"),
    );
    shown(
        &format!("write 5 2100:01 {sixteen} FF at 7\nask"),
        &format!("gather {sixteen} at 7\nwrite 5 2100:01 FF\nask\n"),
    );
    shown(
        &format!("gather {sixteen}{sixteen} at 7"),
        &format!("gather {sixteen} at 7\ngather {sixteen}\n"),
    );
    shown(
        &format!("dcf 5 {sixteen} {sixteen} 01"),
        &format!("gather {sixteen}\ngather {sixteen}\ndcf 5 01\n"),
    );
    shown(
        "write 5 2100:01\ndcf 5\ngather",
        "write 5 2100:01\ndcf 5\ngather\n",
    );
}

#[test]
fn dcf_entries() {
    // P7 of document 01.
    shown(
        "dcf 5 count 2 2100:01=0104 2101:00= at 3",
        "gather 02000000002101020000000104012100 at 3\ndcf 5 00000000\n",
    );
    shown("dcf 5 count 0", "dcf 5 00000000\n");
    shown("dcf 5 count 4294967295", "dcf 5 FFFFFFFF\n");
}

#[test]
fn times_go_on() {
    shown(
        "tick at 15s\nask\nread 5 2100:01 at 15000000us\nask at 16000ms\nask at 0",
        "tick at 15000000\nask\nread 5 2100:01\nask at 16000000\nask at 0\n",
    );
    shown(
        "tick at 18446744073709551615\ntick at 18446744073709ms",
        "tick at 18446744073709551615\ntick at 18446744073709000\n",
    );
}

#[test]
fn a_raw_record_leaves_the_time() {
    let zeros = "00".repeat(16);
    let tick_at_9 = format!("record 0500000000000900000000000000 0000 {zeros}\n");
    shown(&format!("{tick_at_9}ask"), "tick at 9\nask at 0\n");
    // Byte 15 is of no use, so this one stays raw when it is shown.
    let raw = format!("record 05000000000009000000000000000001{zeros}\n");
    shown(&format!("{raw}ask"), &format!("{raw}ask\n"));
}

#[test]
fn replies() {
    for (text, line) in [
        ("seq 01 01", "answers 0 number 0 init"),
        ("seq FE FA", "answers 63 number 62"),
        ("answers 63 number 62 valid", "answers 63 number 62"),
        ("seq 00 00", "answers 0 number 0 none"),
        ("seq 02 07", "answers 0 number 1 valid/request"),
        ("seq 07 02", "answers 1 number 0 error/valid"),
        ("seq 03 03", "answers 0 number 0 error/request"),
        (
            "seq 06 06 flags C0 0104",
            "answers 1 number 1 complete 0104",
        ),
        ("seq 06 06 expedited 0104", "answers 1 number 1 0104"),
        ("seq 06 06 flags 50", "answers 1 number 1 initiate response"),
        ("seq 06 06 flags 81 00", "answers 1 number 1 flags 81 00"),
        ("seq 06 06 flags 20", "answers 1 number 1 abort"),
        (
            "seq 06 06 flags B0 00000405",
            "answers 1 number 1 segment response abort 05040000",
        ),
        (
            "seq 06 06 flags 20 00000405FF",
            "answers 1 number 1 abort 05040000 FF",
        ),
        (
            "seq 06 06 flags 20 000004",
            "answers 1 number 1 abort data 000004",
        ),
        (
            "seq 06 06 abort data 00000405",
            "answers 1 number 1 abort 05040000",
        ),
    ] {
        shown(&format!("reply 5 {text}"), &format!("reply 5 {line}\n"));
    }
}

#[test]
fn an_abort_code_among_gathered_data_is_not_shown_as_one() {
    shown(
        "gather 00\nreply 5 seq 06 06 abort 05040000\nreply 5 seq 06 06 abort 05040000",
        "gather 00\nreply 5 answers 1 number 1 abort data 00000405\n\
         reply 5 answers 1 number 1 abort 05040000\n",
    );
    // A bad record leaves what was gathered.
    let bad = format!("record 09{}\n", "00".repeat(31));
    shown(
        &format!("gather 00\n{bad}reply 5 seq 06 06 abort 05040000"),
        &format!("gather 00\n{bad}reply 5 answers 1 number 1 abort data 00000405\n"),
    );
}

#[test]
fn comments_blank_lines_and_line_ends() {
    let text = b"\xEF\xBB\xBF# \xB5s and \xFF\r\n\r\n  ask   # now\r\n\ttick\tat 5#\n\n#";
    assert_eq!(
        trace::read(&trace::write(text).unwrap()),
        "ask\ntick at 5\n"
    );
    assert_eq!(trace::write(b""), Ok(vec![]));
    assert_eq!(trace::write(b"# nothing"), Ok(vec![]));
}
