//! A frame as it was copied: the SDO part alone, or with what is ahead of it on the wire (EPSG DS 301): the head of its POWERLINK
//! message, and before that the header of its Ethernet frame.

#[cfg(test)]
mod tests;

use crate::bad::Bad;
use crate::words::Way;

/// The octets of an SDO part that are reserved, so 0. On the wire these places have addresses, or the head of the message.
const RESERVED: [usize; 5] = [2, 3, 4, 10, 11];
/// The two addresses ahead of the type of an Ethernet frame.
const ADDRESSES: usize = 12;
const POWERLINK: [u8; 2] = [0x88, 0xAB];
const IP: [u8; 2] = [0x08, 0x00];

const ASND: u8 = 0x06;
const SDO: u8 = 0x05;
/// The node that the client speaks for.
const MANAGING_NODE: u8 = 240;

/// The nodes that a message has in its head.
#[derive(Debug, Clone, Copy, PartialEq, Eq)]
pub struct Nodes {
    to: u8,
    from: u8,
}

impl Nodes {
    /// The way of the frame, which must be what the line says of it, if it says anything.
    pub fn way(self, said: Way) -> Result<Way, Bad> {
        let Self { to, from } = self;
        match said {
            Way::Unknown if from == MANAGING_NODE => Ok(Way::To(to)),
            Way::Unknown if to == MANAGING_NODE => Ok(Way::From(from)),
            Way::Unknown => Ok(said),
            Way::To(node) if node == to => Ok(said),
            Way::From(node) if node == from => Ok(said),
            Way::To(_) | Way::From(_) => Err(Bad::Found(
                "no other node and direction than the frame's own",
                format!("a frame from node {from} to node {to}"),
            )),
        }
    }
}

/// Whether a reserved octet of an SDO part is not 0.
pub fn uses_reserved(sdo: &[u8]) -> bool {
    let mut octets = RESERVED.iter().filter_map(|&place| sdo.get(place));
    octets.any(|&octet| octet != 0)
}

/// The SDO part of a frame, and the nodes where they are in it.
pub fn sdo(frame: &[u8]) -> Result<(Option<Nodes>, &[u8]), Bad> {
    if !uses_reserved(frame) {
        return Ok((None, frame));
    }
    if let [ASND, _, _, SDO, ..] = frame {
        return message(frame);
    }
    match frame.split_at_checked(ADDRESSES) {
        Some((_, [a, b, carried @ ..])) if [*a, *b] == POWERLINK => message(carried),
        Some((_, [a, b, 0x40..=0x4F, ..])) if [*a, *b] == IP => Err(Bad::Found(
            "SDO in POWERLINK (Ethernet type 88AB), or the SDO part alone, from its sequence header on",
            "an Ethernet frame with IP (type 0800)".into(),
        )),
        _ => Ok((None, frame)),
    }
}

fn message(message: &[u8]) -> Result<(Option<Nodes>, &[u8]), Bad> {
    let found = match *message {
        [ASND, to, from, SDO, ..] => return Ok((Some(Nodes { to, from }), &message[4..])),
        [ASND, _, _, service, ..] => format!("message type 06, service {service:02X}"),
        [kind, ..] if kind != ASND => format!("message type {kind:02X}"),
        _ => "the end of the frame".into(),
    };
    let expected = "an SDO frame of POWERLINK: message type 06, service 05";
    Err(Bad::Found(expected, found))
}
