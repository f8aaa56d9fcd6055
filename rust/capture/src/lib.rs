//! What the client sent, as a capture file: the lines of the replay, of which every command that went
//! out becomes a POWERLINK frame. So a dissector that was written elsewhere can look at our bytes.

mod flags;
mod frame;
mod pcap;

use frame::MOST_SENT;
use replay_line::Sent;
use std::fmt;

/// How the flags of a command stand in its frame.
#[derive(Debug, Clone, Copy, PartialEq, Eq)]
pub enum Flags {
    AsSent,
    /// In the order of EPSG DS 301.
    Published,
}

/// A line that the replay does not print.
#[derive(Debug, PartialEq, Eq)]
pub struct Bad {
    pub line: usize,
    pub expected: &'static str,
}

impl fmt::Display for Bad {
    fn fmt(&self, f: &mut fmt::Formatter<'_>) -> fmt::Result {
        write!(f, "line {}: expected {}", self.line, self.expected)
    }
}

/// The capture file of the replay's lines, or the first line that is none.
pub fn capture(lines: &[u8], flags: Flags) -> Result<Vec<u8>, Bad> {
    let mut file = pcap::start();
    let lines = program::text(lines).ok_or(Bad {
        line: 1,
        expected: "a text in UTF-8, not UTF-16",
    })?;
    for (place, text) in lines.split(|&byte| byte == b'\n').enumerate() {
        if text.trim_ascii().is_empty() {
            continue;
        }
        let line = place + 1;
        let bad = |expected| Bad { line, expected };
        let read = replay_line::read(text).map_err(bad)?;
        if let Some(Sent { node, mut bytes }) = read.sent {
            if bytes.len() > MOST_SENT {
                return Err(bad("no more bytes than an Ethernet frame takes"));
            }
            if flags == Flags::Published {
                flags::publish(&mut bytes);
            }
            pcap::put(&mut file, read.record, &frame::frame(node, &bytes));
        }
    }
    Ok(file)
}
