//! The request readers: every length up to 20, and drawn lengths up to 2,000.

use crate::answers::{ours, theirs};
use crate::tally::{Hex, Report, Tally};
use rng::Rng;

/// How many payloads of each length up to 20 are drawn, and how many longer ones.
const OF_EACH_LENGTH: usize = 2_000;
const LONGER: usize = 2_000;

pub fn compare(report: &mut Report) {
    report.add(group("ReadByIndexRequest", 30, same_read));
    report.add(group("WriteByIndexRequest", 31, same_write));
    report.add(group("WriteAllByIndexRequest", 32, same_write_all));
    report.add(group("ReadMultipleParamRequest", 33, same_multiple));
}

fn group(name: &'static str, seed: u64, same: fn(&mut Tally, &[u8])) -> Tally {
    let mut tally = Tally::new(name);
    let mut rng = Rng::new(seed);
    for turn in 0..21 * OF_EACH_LENGTH {
        same(&mut tally, &rng.bytes(turn % 21));
    }
    for _ in 0..LONGER {
        let len = rng.below(2_000);
        same(&mut tally, &rng.bytes(len));
    }
    tally
}

fn same_read(tally: &mut Tally, payload: &[u8]) {
    let our_answer = ours(ostelumiv::ReadByIndexRequest::from_payload(payload))
        .map(|request| (request.index, request.sub_index));
    let their_answer = theirs(oracle::ReadByIndexRequest::from_payload(payload))
        .map(|request| (request.index, request.sub_index));
    tally.same(&our_answer, &their_answer, Hex(payload));
}

fn same_write(tally: &mut Tally, payload: &[u8]) {
    let our_answer = ours(ostelumiv::WriteByIndexRequest::from_payload(payload))
        .map(|request| (request.index, request.sub_index, request.data));
    let their_answer = theirs(oracle::WriteByIndexRequest::from_payload(payload))
        .map(|request| (request.index, request.sub_index, request.data));
    tally.same(&our_answer, &their_answer, Hex(payload));
}

fn same_write_all(tally: &mut Tally, payload: &[u8]) {
    let our_answer = ours(ostelumiv::WriteAllByIndexRequest::from_payload(payload))
        .map(|request| (request.index, request.data));
    let their_answer = theirs(oracle::WriteAllByIndexRequest::from_payload(payload))
        .map(|request| (request.index, request.data));
    tally.same(&our_answer, &their_answer, Hex(payload));
}

/// The count, and the entry at every place up to some past the end.
fn same_multiple(tally: &mut Tally, payload: &[u8]) {
    let places = || (0..payload.len() / 4 + 3).chain([usize::MAX / 4, usize::MAX]);
    let our_answer =
        ours(ostelumiv::ReadMultipleParamRequest::from_payload(payload)).map(|request| {
            let entry = |place| request.entry(place).map(|at| (at.index, at.sub_index));
            (request.count(), places().map(entry).collect::<Vec<_>>())
        });
    let their_answer =
        theirs(oracle::ReadMultipleParamRequest::from_payload(payload)).map(|request| {
            let entries = request.entries;
            let entry = |place: usize| entries.get(place).map(|at| (at.index, at.sub_index));
            (entries.len(), places().map(entry).collect::<Vec<_>>())
        });
    tally.same(&our_answer, &their_answer, Hex(payload));
}
