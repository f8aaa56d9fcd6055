//! The command, written: every kind of header, payloads on both sides of every edge, and buffers that
//! are full, too short or too long.

use crate::answers::{ours, theirs};
use crate::layout::{header_bytes, INITIATE_HEADER};
use crate::tally::{Report, Tally};
use oracle::PowerlinkError;
use ostelumiv::{
    command_write_numbers, CommandId, CommandLayerHeader, CommandNumbers, Refusal, SdoCommand,
    Segmentation,
};
use rng::Rng;

/// A write of ours: of a command, or of numbers that need not name one.
type OurWrite = fn(&CommandNumbers, &[u8], &mut [u8]) -> Result<usize, Refusal>;

pub fn compare(report: &mut Report) {
    let short: Vec<usize> = (0..=20).collect();
    let near: Vec<usize> = (1444..=1460).collect();
    report.add(payloads("command write, payload up to 20", &short, 4));
    report.add(payloads("command write, payload near 1452", &near, 1));
    let long = [65_534, 65_535, 65_536, 65_537, 70_000];
    report.add(long_payloads("command write, payload near 65535", &long));
    report.add(unknown_numbers());
    report.add(any_flags());
}

/// Payloads of the given lengths with every kind of header, `rounds` times over.
fn payloads(group: &'static str, lengths: &[usize], rounds: usize) -> Tally {
    let mut tally = Tally::new(group);
    let mut rng = Rng::new(20);
    for &len in lengths {
        for kind in 0..kinds() * rounds {
            let numbers = kind_of_header(kind % kinds(), len, &mut rng);
            same_in_buffers(&mut tally, &mut rng, &numbers, len);
        }
    }
    tally
}

/// Long payloads, with a drawn command for each segmentation, with a data size and without.
fn long_payloads(group: &'static str, lengths: &[usize]) -> Tally {
    let mut tally = Tally::new(group);
    let mut rng = Rng::new(21);
    for &len in lengths {
        for segmentation in Segmentation::ALL {
            for has_data_size in 0..2 {
                let numbers = CommandNumbers {
                    segmentation: segmentation.number(),
                    has_data_size,
                    ..drawn_numbers(len, &mut rng)
                };
                same_in_buffers(&mut tally, &mut rng, &numbers, len);
            }
        }
    }
    tally
}

/// Every segmentation from 0 to 255 with every command number, in buffers of up to 20 bytes.
fn unknown_numbers() -> Tally {
    let mut tally = Tally::new("command write, every segmentation and command number");
    let mut rng = Rng::new(22);
    for pair in 0..=u16::MAX {
        let [segmentation, command_id] = pair.to_le_bytes();
        let payload_len = rng.below(9);
        let numbers = CommandNumbers {
            segmentation,
            command_id,
            ..drawn_numbers(payload_len, &mut rng)
        };
        let len = rng.below(21);
        let input = (&numbers, payload_len);
        same_write(&mut tally, &mut rng, command_write_numbers, input, len);
    }
    tally
}

/// Every pair of numbers for the two marks, of which any but 0 sets its mark.
fn any_flags() -> Tally {
    let mut tally = Tally::new("command write, every pair of numbers for the marks");
    let mut rng = Rng::new(23);
    for pair in 0..=u16::MAX {
        let [is_response, is_aborted] = pair.to_le_bytes();
        let numbers = CommandNumbers {
            is_response,
            is_aborted,
            has_data_size: rng.byte(),
            ..drawn_numbers(0, &mut rng)
        };
        let (input, len) = ((&numbers, 0), INITIATE_HEADER);
        same_write(&mut tally, &mut rng, command_write_numbers, input, len);
    }
    tally
}

/// How many kinds of header there are: command, segmentation, both marks, data size, and whether the
/// segment size is the payload's.
fn kinds() -> usize {
    CommandId::ALL.len() * Segmentation::ALL.len() * 16
}

fn kind_of_header(kind: usize, payload_len: usize, rng: &mut Rng) -> CommandNumbers {
    let bit = |place: usize| (kind >> place & 1) as u8;
    let rest = kind / 16;
    let numbers = CommandNumbers {
        is_response: bit(0),
        is_aborted: bit(1),
        has_data_size: bit(2),
        segmentation: Segmentation::ALL[rest % 4].number(),
        command_id: CommandId::ALL[rest / 4].number(),
        ..drawn_numbers(payload_len, rng)
    };
    let segment_size = rng.next() as u16;
    if bit(3) == 1 {
        return CommandNumbers {
            segment_size,
            ..numbers
        };
    }
    numbers
}

/// A drawn header that has names, with the payload's length as segment size, as far as 16 bits go.
fn drawn_numbers(payload_len: usize, rng: &mut Rng) -> CommandNumbers {
    CommandNumbers {
        transaction_id: rng.byte(),
        is_response: rng.byte() % 2,
        is_aborted: rng.byte() % 2,
        segmentation: rng.pick(Segmentation::ALL).number(),
        command_id: rng.pick(CommandId::ALL).number(),
        segment_size: payload_len as u16,
        has_data_size: rng.byte() % 2,
        data_size: rng.next() as u32,
    }
}

/// Buffers exactly full, one short, one long, and on both sides of either header's end.
fn same_in_buffers(tally: &mut Tally, rng: &mut Rng, numbers: &CommandNumbers, payload_len: usize) {
    let full = header_bytes(numbers.segmentation) + payload_len;
    for len in [0, 7, 8, 11, 12, full - 1, full, full + 1] {
        same_write(tally, rng, serialize, (numbers, payload_len), len);
    }
}

fn same_write(
    tally: &mut Tally,
    rng: &mut Rng,
    our_write: OurWrite,
    (numbers, payload_len): (&CommandNumbers, usize),
    len: usize,
) {
    let payload = rng.bytes(payload_len);
    tally.same_write(
        rng,
        len,
        |buffer| ours(our_write(numbers, &payload, buffer)),
        |buffer| theirs(their_write(numbers, &payload, buffer)),
        (numbers, payload_len),
    );
}

/// Names the numbers and writes the command, as a caller of the wrapper does.
fn serialize(
    numbers: &CommandNumbers,
    payload: &[u8],
    buffer: &mut [u8],
) -> Result<usize, Refusal> {
    let segmentation = Segmentation::from_number(numbers.segmentation);
    let command_id = CommandId::from_number(numbers.command_id);
    let command = SdoCommand {
        header: CommandLayerHeader {
            transaction_id: numbers.transaction_id,
            is_response: numbers.is_response != 0,
            is_aborted: numbers.is_aborted != 0,
            segmentation: segmentation.ok_or(Refusal::InvalidEnumValue)?,
            command_id: command_id.ok_or(Refusal::InvalidEnumValue)?,
            segment_size: numbers.segment_size,
        },
        data_size: (numbers.has_data_size != 0).then_some(numbers.data_size),
        payload,
    };
    command.serialize(buffer)
}

/// The repository names the segmentation and the command first, as its own reader does, and then
/// writes.
fn their_write(
    numbers: &CommandNumbers,
    payload: &[u8],
    buffer: &mut [u8],
) -> Result<usize, PowerlinkError> {
    let command = oracle::SdoCommand {
        header: oracle::CommandLayerHeader {
            transaction_id: numbers.transaction_id,
            is_response: numbers.is_response != 0,
            is_aborted: numbers.is_aborted != 0,
            segmentation: numbers.segmentation.try_into()?,
            command_id: numbers.command_id.try_into()?,
            segment_size: numbers.segment_size,
        },
        data_size: (numbers.has_data_size != 0).then_some(numbers.data_size),
        payload: payload.to_vec(),
    };
    command.serialize(buffer)
}
