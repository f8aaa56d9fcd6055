//! write(read(x)) = x: for records of every kind, for those that are nearly right, for any bytes.

use rng::Rng;

fn fill(rng: &mut Rng, bytes: &mut [u8]) {
    bytes.iter_mut().for_each(|byte| *byte = rng.byte());
}

/// A record that the notation has words for, but for a stray byte now and then.
fn record(rng: &mut Rng) -> [u8; 32] {
    let mut record = [0; 32];
    let operation = 1 + rng.byte() % 7;
    record[0] = operation;
    if operation <= 4 {
        record[1] = rng.byte();
    }
    if matches!(operation, 1 | 2 | 4) {
        fill(rng, &mut record[2..4]);
    }
    if matches!(operation, 1 | 2) {
        record[4] = rng.byte();
    }
    if operation == 4 {
        let mask = if rng.one_in(4) { 0xFF } else { 0xF0 };
        record[14] = rng.byte() & mask;
    }
    if matches!(operation, 1 | 3 | 4 | 7) {
        record[5] = rng.byte() % 17;
        let end = 16 + usize::from(record[5]);
        fill(rng, &mut record[16..end]);
    }
    if rng.one_in(3) {
        record[6] = rng.byte() % 3;
    }
    if rng.one_in(16) {
        fill(rng, &mut record[6..14]);
    }
    if rng.one_in(8) {
        record[rng.below(32)] = rng.byte();
    }
    record
}

/// The lines of a trace, after seeing that they give it back.
fn lines(trace: &[u8]) -> String {
    let lines = trace::read(trace);
    assert_eq!(
        trace::write(lines.as_bytes()).as_deref(),
        Ok(trace),
        "{lines}"
    );
    assert_eq!(lines.lines().count(), trace.len().div_ceil(32));
    lines
}

#[test]
fn records_of_every_kind() {
    let mut rng = Rng::new(1);
    let mut shown = String::new();
    for _ in 0..500 {
        let trace: Vec<u8> = (0..40).flat_map(|_| record(&mut rng)).collect();
        shown += &lines(&trace);
    }
    for word in [
        "write",
        "read",
        "dcf",
        "reply",
        "tick",
        "ask",
        "gather",
        "record",
        "at",
        "none",
        "init",
        "error/valid",
        "valid/request",
        "initiate",
        "segment",
        "complete",
        "response",
        "abort",
        "data",
        "flags",
    ] {
        assert!(
            shown.split_ascii_whitespace().any(|seen| seen == word),
            "{word}"
        );
    }
}

#[test]
fn each_operation_length_and_unused_byte() {
    for operation in 0..=8 {
        for length in 0..=18 {
            for place in 0..32 {
                let mut record = [0; 32];
                record[0] = operation;
                record[5] = length;
                record[place] ^= 0x81;
                lines(&record);
            }
        }
    }
}

#[test]
fn each_sequence_octet_and_flags() {
    for octet in 0..=255_u8 {
        let mut record = [0; 32];
        record[0] = 4;
        record[2] = octet;
        record[3] = octet.rotate_left(3) ^ 0x5A;
        assert!(lines(&record).starts_with("reply 0 answers"));
        for length in [0, 3, 4, 5, 16] {
            record[5] = length;
            record[14] = octet;
            let line = lines(&record);
            assert!(line.starts_with("reply 0 answers"), "{line}");
        }
    }
}

#[test]
fn any_bytes_and_every_short_end() {
    let mut rng = Rng::new(2);
    for len in 0..200 {
        let trace = rng.bytes(len);
        let lines = lines(&trace);
        assert_eq!(lines.contains("short "), len % 32 != 0);
    }
}

#[test]
fn what_has_no_words_is_shown_raw() {
    for (place, value) in [
        (0, 0),
        (0, 8),
        (0, 255),
        (5, 17),
        (5, 255),
        (15, 1),
        (14, 1),
        (31, 1),
    ] {
        let mut record = [0; 32];
        record[0] = 1;
        record[place] = value;
        let expected = format!("record {}\n", hex::text(&record));
        assert_eq!(lines(&record), expected);
    }
}
