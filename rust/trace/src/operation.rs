//! What a line asks for: its operation, as a record without time and data, and all of its data.

use crate::fields::{self, data, node, octet, DATA, TIME};
use crate::notation::{self, KIND_UNIT, USUAL_STATES};
use crate::words::{Fault, Words};
use record::{Operation, Record, ABORT, RESPONSE};

const OPERATIONS: &str =
    "an operation: write, read, dcf, reply, tick, ask, gather (or record, short)";
const STATES: &str = "states: 'none', 'init' or 'valid' for both, or two with / between them, on \
    receive 'none', 'init', 'valid' or 'error', on send 'none', 'init', 'valid' or 'request'";
const AFTER_STATES: &str = "a kind ('expedited', 'initiate', 'segment', 'complete'), 'response', \
    'abort', data in hex or 'at', in this order and each if wanted";

/// An operation and all its data, up to the time or the end of the line.
pub fn operation(words: &mut Words) -> Result<(Record<'static>, Vec<u8>), Fault> {
    if words.take("write") {
        Ok((on_object(words, Operation::Write)?, data(words, DATA)?))
    } else if words.take("read") {
        Ok((on_object(words, Operation::Read)?, vec![]))
    } else if words.take("dcf") {
        let node = node(words)?;
        Ok((bare(Operation::Dcf, node), dcf(words)?))
    } else if words.take("reply") {
        reply(words)
    } else if words.take("tick") {
        Ok((bare(Operation::Tick, 0), vec![]))
    } else if words.take("ask") {
        Ok((bare(Operation::Ask, 0), vec![]))
    } else if words.take("gather") {
        Ok((bare(Operation::Gather, 0), data(words, DATA)?))
    } else {
        Err(words.fault(OPERATIONS))
    }
}

fn bare(operation: Operation, node: u8) -> Record<'static> {
    Record::new(operation, node, 0, &[])
}

fn on_object(words: &mut Words, operation: Operation) -> Result<Record<'static>, Fault> {
    let (node, object) = (node(words)?, fields::object(words)?);
    Ok(Record {
        index: object.index,
        sub_index: object.sub_index,
        ..bare(operation, node)
    })
}

/// The bytes of a concise DCF, given as they are or as count and entries.
fn dcf(words: &mut Words) -> Result<Vec<u8>, Fault> {
    if !words.take("count") {
        return data(
            words,
            "'count' and entries, data in hex, 'at' or the end of the line",
        );
    }
    let count: u32 = words.expect("the number of entries, below 2^32", fields::decimal)?;
    let mut dcf = count.to_le_bytes().to_vec();
    while !words.at_end() && !words.is(TIME) {
        dcf.extend(fields::entry(words)?);
    }
    Ok(dcf)
}

fn reply(words: &mut Words) -> Result<(Record<'static>, Vec<u8>), Fault> {
    let node = node(words)?;
    let octets = words.take("seq");
    let sequence = if octets {
        [octet(words)?, octet(words)?]
    } else {
        sequence(words)?
    };
    let (flags, data) = if words.take("flags") {
        (octet(words)?, data(words, DATA)?)
    } else {
        flags_and_data(words, octets)?
    };
    let record = Record {
        index: u16::from_le_bytes(sequence),
        flags,
        ..bare(Operation::Reply, node)
    };
    Ok((record, data))
}

/// The octets 0 and 1 of the sequence header, given in words.
fn sequence(words: &mut Words) -> Result<[u8; 2], Fault> {
    if !words.take("answers") {
        return Err(words.fault("'answers' and a sequence number, or 'seq' and two octets"));
    }
    let answers = fields::number(words)?;
    if !words.take("number") {
        return Err(words.fault("'number' and the reply's own sequence number"));
    }
    let number = fields::number(words)?;
    let [receive, send] = states(words)?;
    Ok([
        notation::octet(answers, receive),
        notation::octet(number, send),
    ])
}

fn states(words: &mut Words) -> Result<[u8; 2], Fault> {
    match words.take_as(notation::states) {
        Some(states) => Ok(states),
        None if notation::meant_as_states(words.word()) => Err(words.fault(STATES)),
        None => Ok(USUAL_STATES),
    }
}

/// The flags of a reply in words, and its data, which begin with the code where an abort has one.
fn flags_and_data(words: &mut Words, octets: bool) -> Result<(u8, Vec<u8>), Fault> {
    let mut flags = words.take_as(notation::kind).unwrap_or(0) * KIND_UNIT;
    if words.take("response") {
        flags |= RESPONSE;
    }
    if !words.take("abort") {
        let states = if octets {
            ""
        } else {
            "states such as 'init', "
        };
        return Ok((flags, data(words, &format!("{states}{AFTER_STATES}"))?));
    }
    flags |= ABORT;
    let mut payload = vec![];
    if let Some(code) = words.take_as(fields::octets::<4>) {
        payload.extend(u32::from_be_bytes(code).to_le_bytes());
    } else if !words.take("data") && !words.at_end() && !words.is(TIME) {
        let expected = "an abort code of 8 hex digits, 'data', 'at' or the end of the line";
        return Err(words.fault(expected));
    }
    payload.extend(data(words, DATA)?);
    Ok((flags, payload))
}
