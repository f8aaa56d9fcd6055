//! Data as numbers, as texts and as bytes, from the widths and the characters that the notation has.

use super::row;

/// What is shown of these data, which come from 2100:01 of node 3 at the fifth record.
fn value(data: &str, size: &str, words: &str) {
    let shown = row(format!("5 3 2100:01 {data}").as_bytes()).unwrap();
    let expected = format!("    5  from   3  2100:01  {size:<10}  {words}");
    assert_eq!(shown.text, expected);
}

/// Both sides of each width's edge: the highest without a sign, the lowest with one, and their neighbours.
#[test]
fn numbers_of_each_width() {
    for (data, size, unsigned, signed) in [
        ("00", "   1 byte", "0", "0"),
        ("7F", "   1 byte", "127", "127"),
        ("80", "   1 byte", "128", "-128"),
        ("FF", "   1 byte", "255", "-1"),
        ("FF00", "   2 bytes", "255", "255"),
        ("FF7F", "   2 bytes", "32767", "32767"),
        ("0080", "   2 bytes", "32768", "-32768"),
        ("FFFF", "   2 bytes", "65535", "-1"),
        ("FFFFFF7F", "   4 bytes", "2147483647", "2147483647"),
        ("00000080", "   4 bytes", "2147483648", "-2147483648"),
        ("FFFFFFFF", "   4 bytes", "4294967295", "-1"),
        (
            "FFFFFFFFFFFFFF7F",
            "   8 bytes",
            "9223372036854775807",
            "9223372036854775807",
        ),
        (
            "0000000000000080",
            "   8 bytes",
            "9223372036854775808",
            "-9223372036854775808",
        ),
        (
            "FFFFFFFFFFFFFFFF",
            "   8 bytes",
            "18446744073709551615",
            "-1",
        ),
    ] {
        // 7F is no printable character, so none of these is a text, too.
        value(data, size, &format!("unsigned {unsigned}, signed {signed}"));
    }
}

#[test]
fn texts_and_numbers_that_could_be_texts() {
    value("20207E", "   3 bytes", "text \"  ~\"");
    value("6D2022", "   3 bytes", "text \"m \"\"");
    value("41", "   1 byte", "unsigned 65, signed 65, text \"A\"");
    let four = "unsigned 1953719668, signed 1953719668, text \"test\"";
    value("74657374", "   4 bytes", four);
    let eight = "unsigned 4051354329872484680, signed 4051354329872484680, text \"HIJKLM98\"";
    value("48494A4B4C4D3938", "   8 bytes", eight);
}

/// A byte below the blank, the one after the last character, and one of no ASCII make it no text.
#[test]
fn bytes_that_are_neither() {
    value("41421F", "   3 bytes", "data 41421F");
    value("41427F", "   3 bytes", "data 41427F");
    value("4142E4", "   3 bytes", "data 4142E4");
    value("0001020304", "   5 bytes", "data 00010203 04");
    value(
        "000102030405060708",
        "   9 bytes",
        "data 00010203 04050607 08",
    );
    let long = "00".repeat(4_096);
    let groups = ["00000000"; 1_024].join(" ");
    value(&long, "4096 bytes", &format!("data {groups}"));
}
