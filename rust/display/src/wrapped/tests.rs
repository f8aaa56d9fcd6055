//! Frames as they are on the wire, written by hand after the dissector's facts. What tshark 4.0.17 says of each (its column Info)
//! stands ahead of it, and the row that is shown behind.

use crate::frames;
use crate::row::Tone;

/// Where frames go, and an address of a node's.
const ALL: &str = "01111E000004 006065123405 88AB";
const OPENING: &str = "FC010000 0001000000000000";
const OPENING_WORDS: &str =
    "Nil           Opening                0 bytes  transaction   1  send  0 init     receive 63 none";

fn row(line: &str) -> String {
    frames::row(line.as_bytes()).map_or_else(|bad| bad.to_string(), |row| row.text)
}

/// Zeros up to the length of the shortest frame.
fn padded(frame: &str) -> String {
    let digits = frame.replace(' ', "");
    format!("{digits:0<120}")
}

#[test]
fn whole_frames_are_shown_with_their_nodes() {
    for (info, frame, shown) in [
        (
            "240->  5  ASnd (SDO) Seq:63n,00i(InitReq)",
            "01111E000004 0200000000F0 88AB 06 05 F0 05 FC010000 0001000000000000",
            "to     5  Nil           Opening                0 bytes  transaction   1  \
             send  0 init     receive 63 none",
        ),
        (
            "  5->240  ASnd (SDO) Seq:00i,00i(InitAck)",
            "01111E000004 006065123405 88AB 06 F0 05 05 01010000 0000000000000000",
            "from   5  Nil           Opening                0 bytes  transaction   0  \
             send  0 init     receive  0 init",
        ),
        (
            "240->  5  ASnd (SDO) Seq:00c,01e(AckReq) Cmd:EX,TID=01 WriteByIndex[6]: (0x2100/1)",
            "006065123405 0060650000F0 88AB 06 05 F0 05 02070000 0001000106000000 00210100 0104",
            "to     5  WriteByIndex  Expedited  2100:01     6 bytes  transaction   1  \
             send  1 request  receive  0 valid  data 0104",
        ),
        (
            "  3->  7  ASnd (SDO) Seq:01c,01c(Valid)",
            "01111E000004 006065123405 88AB 06 07 03 05 06060000 0000000000000000",
            "frame     Nil           Expedited              0 bytes  transaction   0  \
             send  1 valid    receive  1 valid",
        ),
    ] {
        assert_eq!(row(&padded(frame)), shown, "{info}");
        let (_, message) = frame.split_once(" 88AB ").unwrap();
        assert_eq!(row(message), shown, "without its Ethernet header: {info}");
    }
}

#[test]
fn the_line_says_the_frames_own_nodes() {
    let (to_5, from_5) = (
        format!("{ALL} 06 05 F0 05 {OPENING}"),
        format!("06 F0 05 05 {OPENING}"),
    );
    assert_eq!(
        row(&format!("5 > {to_5}")),
        format!("to     5  {OPENING_WORDS}")
    );
    assert_eq!(
        row(&format!("5 < {from_5}")),
        format!("from   5  {OPENING_WORDS}")
    );
    let between = format!("{ALL} 06 07 03 05 {OPENING}");
    assert_eq!(
        row(&format!("7 > {between}")),
        format!("to     7  {OPENING_WORDS}")
    );
    for (line, nodes) in [
        (format!("6 > {to_5}"), "from node 240 to node 5"),
        (format!("5 < {to_5}"), "from node 240 to node 5"),
        (format!("5 > {from_5}"), "from node 5 to node 240"),
        (format!("7 < {between}"), "from node 3 to node 7"),
        (format!("9 < {from_5}"), "from node 5 to node 240"),
    ] {
        let told = "expected no other node and direction than the frame's own; found a frame";
        assert_eq!(row(&line), format!("{told} {nodes}"));
    }
}

#[test]
fn what_is_no_sdo_is_told() {
    let powerlink = "expected an SDO frame of POWERLINK: message type 06, service 05; found";
    for (info, frame, found) in [
        (
            "240->255 SoC",
            "01111E000001 0060650000F0 88AB 01 FF F0 00",
            "message type 01",
        ),
        (
            "  5->255  ASnd (IDENT_RESPONSE)",
            "01111E000004 006065123405 88AB 06 FF 05 01",
            "message type 06, service 01",
        ),
    ] {
        assert_eq!(
            row(&padded(frame)),
            format!("{powerlink} {found}"),
            "{info}"
        );
    }
    for cut in ["", "06", "0605F0"] {
        let told = format!("{powerlink} the end of the frame");
        assert_eq!(row(&format!("{ALL} {cut}")), told);
    }
    let cut = format!("{ALL} 06 05 F0 05 FC01");
    assert_eq!(row(&cut), "refused 1 BufferTooShort");
    // By UDP: 240->  5  ASnd (SDO) Seq:63n,00i(InitReq)
    let by_ip = "006065123405 0060650000F0 0800 4500003000000000 40110000 C0A864F0 C0A86405 \
                 0EEB0EEB001C0000 0605F005 FC010000 0001000000000000";
    let told = "expected SDO in POWERLINK (Ethernet type 88AB), or the SDO part alone, from its \
                sequence header on; found an Ethernet frame with IP (type 0800)";
    assert_eq!(row(by_ip), told);
}

/// An object, or data, that looks like an Ethernet type: the reserved octets of an SDO part are 0.
#[test]
fn an_sdo_part_stays_one() {
    let write = "02070000 00010001 06000000 88AB0600 0104";
    let words = "WriteByIndex  Expedited  AB88:06     6 bytes  transaction   1  \
                 send  1 request  receive  0 valid  data 0104";
    assert_eq!(row(write), format!("frame     {words}"));
    let answer = "5 < 06060000 00011002 04000000 08004500";
    let words = "ReadByIndex   Expedited              4 bytes  transaction   1  \
                 send  1 valid    receive  1 valid  response, data 08004500";
    assert_eq!(row(answer), format!("from   5  {words}"));
}

/// The codec passes over reserved octets. Here they tell that the bytes may be something else: a dump's line with its offset.
#[test]
fn reserved_octets_that_are_not_0_are_told() {
    for place in [2, 3, 4, 10, 11] {
        let mut frame = hex::bytes(OPENING.as_bytes()).unwrap();
        frame[place] = 1;
        let shown = row(&hex::text(&frame));
        let told = format!("frame     {OPENING_WORDS}   reserved octets not 0");
        assert_eq!(shown, told);
    }
    let write = "5 > 02070100 00010001 06000000 00210100 0104";
    assert!(row(write).ends_with("  data 0104, reserved octets not 0"));
    let tone = frames::row(write.as_bytes()).unwrap().tone;
    assert_eq!(tone, Tone::Trouble);
}
