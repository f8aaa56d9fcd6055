//! The command numbers, all 256: decoder, listing and repository agree.

use crate::answers::{ours, theirs};
use crate::layout::HEADER;
use crate::tally::{Report, Tally};
use ostelumiv::{command_at, command_write_numbers, CommandNumbers, SdoCommand};

pub fn compare(report: &mut Report) {
    let mut tally = Tally::new("command numbers: decoded, listed, taken by a write");
    let listing: Vec<u8> = (0..).map_while(command_at).collect();
    for number in 0..=u8::MAX {
        let frame = frame(number);
        let listed = listing.contains(&number);
        let our_answers = (our_decoded(&frame), listed, our_write(number));
        let decoded = their_decoded(&frame);
        let their_answers = (decoded, decoded.is_ok(), decoded.map(|_| HEADER));
        tally.same(&our_answers, &their_answers, number);
    }
    report.add(tally);
}

/// A command without payload, of all zeros but for its number.
fn frame(number: u8) -> [u8; HEADER] {
    let mut frame = [0; HEADER];
    frame[3] = number;
    frame
}

fn our_decoded(frame: &[u8]) -> Result<u8, u8> {
    let read = ours(SdoCommand::deserialize(frame))?;
    Ok(read.header.command_id.number())
}

fn their_decoded(frame: &[u8]) -> Result<u8, u8> {
    let read = theirs(oracle::SdoCommand::deserialize(frame))?;
    Ok(read.header.command_id as u8)
}

fn our_write(number: u8) -> Result<usize, u8> {
    let numbers = CommandNumbers {
        command_id: number,
        ..CommandNumbers::default()
    };
    ours(command_write_numbers(&numbers, &[], &mut [0; HEADER]))
}
