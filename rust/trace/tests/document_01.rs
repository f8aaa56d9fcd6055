//! Document 01's five records from text, in words and in octets, and back to text.

/// The five records as the paper has them: its bytes, and the zeros up to 32.
fn five_records() -> Vec<u8> {
    let mut write = vec![0x01, 0x05, 0x00, 0x21, 0x01, 0x02];
    write.extend([0; 10]);
    write.extend([0x01, 0x04]);
    let ask = vec![0x06];
    let opened = vec![0x04, 0x05, 0x01, 0x01];
    let written = vec![0x04, 0x05, 0x06, 0x06];
    let mut records = vec![];
    for mut record in [write, ask.clone(), opened, ask, written] {
        record.resize(32, 0);
        records.extend(record);
    }
    records
}

const LINES: &str = "\
write 5 2100:01 0104
ask
reply 5 answers 0 number 0 init
ask
reply 5 answers 1 number 1
";

#[test]
fn from_text() {
    assert_eq!(trace::write(LINES.as_bytes()), Ok(five_records()));
}

#[test]
fn to_text() {
    assert_eq!(trace::read(&five_records()), LINES);
}

#[test]
fn the_file() {
    let file = include_bytes!("../../../traces/document01.trace");
    assert_eq!(file[..], five_records());
}

#[test]
fn from_octets() {
    let text = "write 5 2100:01 01 04 at 0\nask at 0\nreply 5 seq 01 01 flags 00\nask\n\
                reply 5 seq 06 06";
    assert_eq!(trace::write(text.as_bytes()), Ok(five_records()));
}
