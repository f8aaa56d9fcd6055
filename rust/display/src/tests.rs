//! The three notations, line by line: document 01's run, values, what is passed over, and what is told.

use super::{run, Notation};

fn shows(notation: Notation, input: &[u8], expected: &str, all_shown: bool) {
    let mut output = Vec::new();
    let answer = run(notation, false, &mut &*input, &mut output).unwrap();
    assert_eq!(String::from_utf8(output).unwrap(), expected);
    assert_eq!(answer, all_shown);
}

fn frames(input: &[u8], expected: &str, all_shown: bool) {
    shows(Notation::Frames, input, expected, all_shown);
}

fn replay(input: &[u8], expected: &str, all_shown: bool) {
    shows(Notation::Replay, input, expected, all_shown);
}

fn values(input: &[u8], expected: &str, all_shown: bool) {
    shows(Notation::Values, input, expected, all_shown);
}

#[test]
fn document_01s_run_as_frames() {
    frames(
        b"FC0100000001000000000000\n020700000001000106000000002101000104\n",
        "\
frame     Nil           Opening                0 bytes  transaction   1  send  0 init     receive 63 none
frame     WriteByIndex  Expedited  2100:01     6 bytes  transaction   1  send  1 request  receive  0 valid  data 0104
",
        true,
    );
}

/// What the client sent in the run, and between it the replies of the third and the fifth record.
#[test]
fn document_01s_run_with_node_and_direction() {
    frames(
        b"5 > FC0100000001000000000000
          5 < 01010000 0000000000000000
          5>020700000001000106000000002101000104
          255 <06060000 0000000000000000",
        "\
to     5  Nil           Opening                0 bytes  transaction   1  send  0 init     receive 63 none
from   5  Nil           Opening                0 bytes  transaction   0  send  0 init     receive  0 init
to     5  WriteByIndex  Expedited  2100:01     6 bytes  transaction   1  send  1 request  receive  0 valid  data 0104
from 255  Nil           Expedited              0 bytes  transaction   0  send  1 valid    receive  1 valid
",
        true,
    );
}

#[test]
fn document_01s_run_of_the_replay() {
    replay(
        b"1 1 0 - - -
          2 6 0 5 FC0100000001000000000000 -
          3 4 0 - - -
          4 6 0 5 020700000001000106000000002101000104 -
          5 4 0 - - 5:C:1",
        "    1  write
    2  ask     to     5  Nil           Opening                0 bytes  transaction   1  send  0 init     receive 63 none
    3  reply
    4  ask     to     5  WriteByIndex  Expedited  2100:01     6 bytes  transaction   1  send  1 request  receive  0 valid  data 0104
    5  reply   end    5  Complete      1 delivered
",
        true,
    );
}

#[test]
fn spaces_comments_and_blank_lines() {
    frames(
        b"# the abort\r\n\n  \t\nfe 00 00 00  00 01 20 00 0400 0000 0000 04 05\r\n  # end",
        "\
frame     Nil           Abort                  4 bytes  transaction   1  send  0 none     receive 63 valid  code 05040000
",
        true,
    );
}

#[test]
fn bad_lines_are_told_and_the_rest_is_shown() {
    frames(
        b"# bad ones\nFC01\nFC010000 0001\n\n5 > FC010000 00010007 00000000\nhello\n256 > FC01\n\
          > FC01\n5 > 6 < FC01\n7 >\n0 > FC0100000001000000000000\n",
        "\
line 2: refused 1 BufferTooShort
line 3: refused 1 BufferTooShort
line 5: refused 2 InvalidEnumValue
line 6: expected bytes in hex, two digits a byte
line 7: expected a node from 0 to 255 ahead of > or <
line 8: expected a node from 0 to 255 ahead of > or <
line 9: expected bytes in hex, two digits a byte
line 10: refused 1 BufferTooShort
to     0  Nil           Opening                0 bytes  transaction   1  send  0 init     receive 63 none
",
        false,
    );
}

#[test]
fn bad_lines_of_the_replay() {
    replay(
        b"1 1 0 - -\n1 1 12 - - -\n1 6 0 5 FC01 -\n1 6 0 5 02070000000100010300000000 2101 -\n\
          1 6 0 5 02070000000100010300000000 -\n1 6 0 5 020700000001000103000000002101 -\n\
          1 6 0 - - 5:A:1\n2 5 0 - - -\n",
        "\
line 1: expected six fields: record number, operation, refusal, node, bytes, ends
line 2: expected a refusal from 1 to 11, or 0, third
line 3: refused 1 BufferTooShort
line 4: expected six fields: record number, operation, refusal, node, bytes, ends
line 5: refused 1 BufferTooShort
line 6: refused 3 SdoInvalidCommandPayload
line 7: expected ends such as 5:C:1, or -, last
    2  tick
",
        false,
    );
}

/// Every refusal that a record can get, by document 01's numbers and names, is shown and is not bad input.
#[test]
fn refused_records() {
    replay(
        b"1 1 4 - - -\n2 3 5 - - -\n3 2 6 - - -\n4 4 7 - - -\n5 7 7 - - -\n6 6 8 - - -\n\
          7 200 10 - - -\n65535 - 11 - - -\n",
        "    1  write   refused   4 Busy
    2  dcf     refused   5 DcfTooShort
    3  read    refused   6 TableFull
    4  reply   refused   7 NoRoom
    5  gather  refused   7 NoRoom
    6  ask     refused   8 DeadlineRange
    7  200     refused   10 BadRecord
65535  -       refused   11 ShortRecord
",
        true,
    );
}

#[test]
fn each_end_has_a_row_and_a_gather_has_none() {
    replay(
        b"1 7 0 - - -
          2 5 0 255 02080000000120000400000000000405 5:X:2,255:T:0
          3 0 10 - - 1:O:0,2:S:0,3:P:1,4:U:0",
        "    2  tick    to   255  Nil           Abort                  4 bytes  transaction   1  send  2 none     receive  0 valid  code 05040000
    2  tick    end    5  Cut           2 delivered
    2  tick    end  255  Timeout       0 delivered
    3  0       refused   10 BadRecord
    3  0       end    1  OpenRefused   0 delivered
    3  0       end    2  Sequence      0 delivered
    3  0       end    3  PeerAborted   1 delivered
    3  0       end    4  BadSegment    0 delivered
",
        true,
    );
}

#[test]
fn bytes_that_are_no_text() {
    let not_hex = "line 1: expected bytes in hex, two digits a byte\n\
                   line 2: expected bytes in hex, two digits a byte\n";
    frames(b"\xFF\xFF\n\0\n", not_hex, false);
    let node = "line 1: expected a node from 0 to 255 ahead of > or <\n";
    frames(b"\xFF > 00", node, false);
}

#[test]
fn lines_that_end_in_cr_alone() {
    let told = "line 1: expected a line that ends in LF or CRLF, not CR alone\n";
    frames(b"FC0100000001000000000000\rFC01\r", told, false);
    frames(b"# a comment\rFC01\r", told, false);
    replay(b"1 1 0 - - -\r2 5 0 - - -\r", told, false);
}

#[test]
fn a_line_of_the_replay_is_no_frame() {
    frames(
        b"2 6 0 5 FC0100000001000000000000 -\n1 1 0 - - 5:A:1\n",
        "\
line 1: expected a frame; found a line of the replay, which 'display replay' shows (make display DO=replay)
line 2: expected bytes in hex, two digits a byte
",
        false,
    );
}

#[test]
fn a_line_of_values_is_no_frame_and_none_of_the_replay() {
    frames(
        b"5 3 2100:01 0104\n5 3 2100:01 010\n",
        "\
line 1: expected a frame; found a line of values, which 'display values' shows (make display DO=values)
line 2: expected bytes in hex, two digits a byte
",
        false,
    );
    let told =
        "line 1: expected six fields: record number, operation, refusal, node, bytes, ends\n";
    replay(b"5 3 2100:01 0104\n", told, false);
}

#[test]
fn marks_in_front_of_a_text() {
    let row = "    2  tick\n";
    replay(b"\xEF\xBB\xBF2 5 0 - - -\r\n", row, true);
    let told = "line 1: expected a text in UTF-8, not UTF-16\n";
    replay(b"\xFF\xFE2\0 \x005\0", told, false);
    frames(b"\xFE\xFF\x00F\x00C\0\n", told, false);
}

#[test]
fn no_input() {
    frames(b"", "", true);
    replay(b"", "", true);
    values(b"", "", true);
}

#[test]
fn lines_of_values() {
    values(
        b"# two cells\n5 3 2100:01 0104\r\n\n  14 255 1008:00 44657074682063656C6C\n65535 0 FFFF:FF -",
        "    5  from   3  2100:01     2 bytes  unsigned 1025, signed 1025
   14  from 255  1008:00    10 bytes  text \"Depth cell\"
65535  from   0  FFFF:FF     0 bytes  no data
",
        true,
    );
}

#[test]
fn bad_lines_of_values() {
    values(
        b"5 3 2100:01\n5 256 2100:01 0104\n5 3 2100 0104\n5 3 2100:01 010\n1 1 0 - - -\n\xFF\n6 3 2100:01 -\n",
        "\
line 1: expected four fields: record number, node, object, data
line 2: expected a node from 0 to 255 second
line 3: expected an object such as 2100:01 third
line 4: expected data in hex, two digits a byte, or -, last
line 5: expected four fields: record number, node, object, data
line 6: expected four fields: record number, node, object, data
    6  from   3  2100:01     0 bytes  no data
",
        false,
    );
}
