//! A POWERLINK frame on Ethernet around what the client sends: asynchronous (ASnd), with SDO service.

/// Ethernet's own limits, without its check sum: what it carries at most, and how short a frame is.
const MOST_CARRIED: usize = 1_500;
const SHORTEST: usize = 60;

/// The address that asynchronous POWERLINK frames go to.
const DESTINATION: [u8; 6] = [0x01, 0x11, 0x1E, 0x00, 0x00, 0x04];
/// An address of no maker's; its last octet is the node.
const SOURCE: [u8; 6] = [0x02, 0x00, 0x00, 0x00, 0x00, MANAGING_NODE];
const POWERLINK: [u8; 2] = [0x88, 0xAB];

const ASND: u8 = 0x06;
const SDO: u8 = 0x05;
/// The client speaks for the managing node.
const MANAGING_NODE: u8 = 240;
/// Message type, destination, source, service.
const HEAD: usize = 4;

/// How many bytes of the client's a frame takes.
pub const MOST_SENT: usize = MOST_CARRIED - HEAD;

/// The frame to a node, filled up with zeros where it would be too short. `sent` has the sequence
/// header and the command.
pub fn frame(node: u8, sent: &[u8]) -> Vec<u8> {
    let head = [ASND, node, MANAGING_NODE, SDO];
    let mut frame = [&DESTINATION[..], &SOURCE, &POWERLINK, &head, sent].concat();
    if frame.len() < SHORTEST {
        frame.resize(SHORTEST, 0);
    }
    frame
}
