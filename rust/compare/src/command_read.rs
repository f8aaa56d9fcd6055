//! The command, read: every head, every edge of the payload, drawn and damaged bytes.

use crate::answers::{ours, theirs};
use crate::layout::{header_bytes, HEADER, INITIATE_HEADER};
use crate::tally::{Hex, Report, Tally};
use ostelumiv::{CommandId, CommandLayerHeader, SdoCommand, Segmentation};
use rng::Rng;
use std::ops::RangeInclusive;

/// A command as it was read: transaction, response, abort, segmentation, command number; then
/// segment size, data size and payload.
type Plain = ([u8; 5], u16, Option<u32>, Vec<u8>);

pub fn compare(report: &mut Report) {
    report.add(heads());
    report.add(edges("command read, payload near 1452", 1444..=1460, 8));
    report.add(edges("command read, payload of 65535", 65_535..=65_535, 2));
    report.add(drawn());
    report.add(damaged());
}

/// Every flags byte with every command number, at every length up to 20, the segment size on both
/// sides of what there is room for. One segment size is enough where the number is unknown.
fn heads() -> Tally {
    let mut tally = Tally::new("command read, every flags byte and command number");
    let mut rng = Rng::new(10);
    for pair in 0..=u16::MAX {
        let [flags, command] = pair.to_le_bytes();
        let known = CommandId::from_number(command).is_some();
        let mut buffer = rng.bytes(20);
        buffer[2] = flags;
        buffer[3] = command;
        for len in 0..=buffer.len() {
            let room = len.saturating_sub(header_bytes(flags / 64)) as u16;
            let sizes = if known {
                room.saturating_sub(2)..=room + 2
            } else {
                room..=room
            };
            for size in sizes {
                buffer[4..6].copy_from_slice(&size.to_le_bytes());
                same_read(&mut tally, &buffer[..len]);
            }
        }
    }
    tally
}

/// Payloads of the given lengths in buffers that are up to `around` bytes too short or too long for
/// either header, for every segmentation and command.
fn edges(group: &'static str, payloads: RangeInclusive<u16>, around: usize) -> Tally {
    let mut tally = Tally::new(group);
    let mut rng = Rng::new(11);
    let mut buffer = rng.bytes(INITIATE_HEADER + usize::from(*payloads.end()) + around);
    for payload in payloads {
        buffer[4..6].copy_from_slice(&payload.to_le_bytes());
        for pair in 0..CommandId::ALL.len() * Segmentation::ALL.len() {
            let segmentation = Segmentation::ALL[pair % Segmentation::ALL.len()];
            buffer[2] = rng.byte() % 64 + segmentation.number() * 64;
            buffer[3] = CommandId::ALL[pair / Segmentation::ALL.len()].number();
            for header in [HEADER, INITIATE_HEADER] {
                let full = header + usize::from(payload);
                for len in full - around..=full + around {
                    same_read(&mut tally, &buffer[..len]);
                }
            }
        }
    }
    tally
}

/// Drawn bytes of drawn length, half of them with a known command number and a small segment size.
fn drawn() -> Tally {
    let mut tally = Tally::new("command read, drawn bytes");
    let mut rng = Rng::new(12);
    for turn in 0..200_000 {
        let len = rng.below(64);
        let mut buffer = rng.bytes(len);
        if len >= HEADER && turn % 2 == 0 {
            buffer[3] = rng.pick(CommandId::ALL).number();
            buffer[4] %= 64;
            buffer[5] = 0;
        }
        same_read(&mut tally, &buffer);
    }
    tally
}

/// Well-formed commands as they were written, and copies with an octet changed, cut or extended.
fn damaged() -> Tally {
    let mut tally = Tally::new("command read, damaged copies of written commands");
    let mut rng = Rng::new(13);
    for _ in 0..60_000 {
        let whole = written(&mut rng);
        same_read(&mut tally, &whole);
        let mut changed = whole.clone();
        let place = rng.below(whole.len());
        changed[place] ^= 1 << rng.below(8);
        same_read(&mut tally, &changed);
        same_read(&mut tally, &whole[..rng.below(whole.len())]);
        let mut extended = whole;
        let more = 1 + rng.below(16);
        extended.extend(rng.bytes(more));
        same_read(&mut tally, &extended);
    }
    tally
}

/// A well-formed command with up to 64 bytes of payload, written by the wrapper.
fn written(rng: &mut Rng) -> Vec<u8> {
    let payload_len = rng.below(65);
    let payload = rng.bytes(payload_len);
    let segmentation = rng.pick(Segmentation::ALL);
    let data_size = rng.next() as u32;
    let command = SdoCommand {
        header: CommandLayerHeader {
            transaction_id: rng.byte(),
            is_response: rng.below(2) == 1,
            is_aborted: rng.below(2) == 1,
            segmentation,
            command_id: rng.pick(CommandId::ALL),
            segment_size: payload_len as u16,
        },
        data_size: (segmentation == Segmentation::Initiate).then_some(data_size),
        payload: &payload,
    };
    let mut buffer = vec![0; INITIATE_HEADER + payload_len];
    let len = command.serialize(&mut buffer).expect("there is room");
    buffer.truncate(len);
    buffer
}

fn same_read(tally: &mut Tally, bytes: &[u8]) {
    tally.same(&our_read(bytes), &their_read(bytes), Hex(bytes));
}

fn our_read(bytes: &[u8]) -> Result<Plain, u8> {
    let command = ours(SdoCommand::deserialize(bytes))?;
    let header = command.header;
    let numbers = [
        header.transaction_id,
        header.is_response.into(),
        header.is_aborted.into(),
        header.segmentation.number(),
        header.command_id.number(),
    ];
    let payload = command.payload.to_vec();
    Ok((numbers, header.segment_size, command.data_size, payload))
}

fn their_read(bytes: &[u8]) -> Result<Plain, u8> {
    let command = theirs(oracle::SdoCommand::deserialize(bytes))?;
    let header = command.header;
    let numbers = [
        header.transaction_id,
        header.is_response.into(),
        header.is_aborted.into(),
        header.segmentation as u8,
        header.command_id as u8,
    ];
    Ok((
        numbers,
        header.segment_size,
        command.data_size,
        command.payload,
    ))
}
