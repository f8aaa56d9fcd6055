//! The sequence header, read and written.

use crate::answers::{ours, theirs};
use crate::tally::{Hex, Report, Tally};
use oracle::{PowerlinkError, ReceiveConnState, SendConnState};
use rng::Rng;

/// Receive number, receive state, send number, send state.
type Numbers = [u8; 4];

pub fn compare(report: &mut Report) {
    report.add(read());
    report.add(write_lengths());
    report.add(write_states());
    report.add(write_numbers());
}

/// Every first two octets, at every length up to 6, with drawn octets behind.
fn read() -> Tally {
    let mut tally = Tally::new("sequence read");
    let mut rng = Rng::new(1);
    for head in 0..=u16::MAX {
        let mut buffer = rng.bytes(6);
        buffer[..2].copy_from_slice(&head.to_le_bytes());
        for len in 0..=buffer.len() {
            let bytes = &buffer[..len];
            tally.same(&our_read(bytes), &their_read(bytes), Hex(bytes));
        }
    }
    tally
}

/// Every receive number, with states on both sides of the edge, at every length up to 20.
fn write_lengths() -> Tally {
    let mut tally = Tally::new("sequence write, every number and length");
    let mut rng = Rng::new(2);
    const STATES: [u8; 6] = [0, 1, 2, 3, 4, 255];
    for receive in 0..=255 {
        for pair in 0..STATES.len() * STATES.len() {
            let receive_con = STATES[pair / STATES.len()];
            let send_con = STATES[pair % STATES.len()];
            for len in 0..=20 {
                let numbers = [receive, receive_con, rng.byte(), send_con];
                same_write(&mut tally, &mut rng, len, numbers, our_write(numbers));
            }
        }
    }
    tally
}

/// Every pair of states from 0 to 255, most of which name none, in buffers of up to 20 bytes.
fn write_states() -> Tally {
    let mut tally = Tally::new("sequence write, every pair of states");
    let mut rng = Rng::new(3);
    for pair in 0..=u16::MAX {
        let [receive_con, send_con] = pair.to_le_bytes();
        let numbers = [rng.byte(), receive_con, rng.byte(), send_con];
        let len = rng.below(21);
        same_write(&mut tally, &mut rng, len, numbers, our_write(numbers));
    }
    tally
}

/// Every pair of numbers from 0 to 255, with states that have a name, in buffers of up to 20 bytes.
fn write_numbers() -> Tally {
    let mut tally = Tally::new("sequence write, every pair of numbers");
    let mut rng = Rng::new(4);
    for pair in 0..=u16::MAX {
        let [receive, send] = pair.to_le_bytes();
        let header = ostelumiv::SequenceLayerHeader {
            receive_sequence_number: receive,
            receive_con: rng.pick(ostelumiv::ReceiveConnState::ALL),
            send_sequence_number: send,
            send_con: rng.pick(ostelumiv::SendConnState::ALL),
        };
        let len = rng.below(21);
        let write = |buffer: &mut [u8]| ours(header.serialize(buffer));
        same_write(&mut tally, &mut rng, len, plain(&header), write);
    }
    tally
}

fn same_write(
    tally: &mut Tally,
    rng: &mut Rng,
    len: usize,
    numbers: Numbers,
    our_write: impl FnOnce(&mut [u8]) -> Result<usize, u8>,
) {
    let their_write = |buffer: &mut [u8]| theirs(their_write(numbers, buffer));
    tally.same_write(rng, len, our_write, their_write, numbers);
}

fn plain(header: &ostelumiv::SequenceLayerHeader) -> Numbers {
    [
        header.receive_sequence_number,
        header.receive_con.number(),
        header.send_sequence_number,
        header.send_con.number(),
    ]
}

fn our_read(bytes: &[u8]) -> Result<Numbers, u8> {
    ours(ostelumiv::SequenceLayerHeader::deserialize(bytes)).map(|header| plain(&header))
}

fn their_read(bytes: &[u8]) -> Result<Numbers, u8> {
    let header = theirs(oracle::SequenceLayerHeader::deserialize(bytes))?;
    Ok([
        header.receive_sequence_number,
        header.receive_con as u8,
        header.send_sequence_number,
        header.send_con as u8,
    ])
}

/// The raw write, which takes states that have no name.
fn our_write(numbers: Numbers) -> impl FnOnce(&mut [u8]) -> Result<usize, u8> {
    let [receive, receive_con, send, send_con] = numbers;
    move |buffer| {
        ours(ostelumiv::sequence_write_numbers(
            receive,
            receive_con,
            send,
            send_con,
            buffer,
        ))
    }
}

/// The repository names the states first, as its own readers do, and then writes.
fn their_write(numbers: Numbers, buffer: &mut [u8]) -> Result<usize, PowerlinkError> {
    let [receive, receive_con, send, send_con] = numbers;
    let header = oracle::SequenceLayerHeader {
        receive_sequence_number: receive,
        receive_con: ReceiveConnState::try_from(receive_con)?,
        send_sequence_number: send,
        send_con: SendConnState::try_from(send_con)?,
    };
    header.serialize(buffer)
}
