//! Records to lines, a line each, so that line n is the record that the replay numbers n.

use crate::fields::Object;
use crate::notation::{self, KINDS, KIND_UNIT, RESERVED, USUAL_STATES};
use record::{Operation, Record, RecordBytes, ABORT, RECORD_BYTES, RESPONSE, TIME};

/// The lines of a trace. A record is in words where these give all of its bytes back, else in hex,
/// and so is what there is of a record that was cut.
pub fn read(trace: &[u8]) -> String {
    let (records, short) = trace.as_chunks::<RECORD_BYTES>();
    let mut reader = Reader::default();
    let mut lines: String = records.iter().map(|bytes| reader.line(bytes)).collect();
    if !short.is_empty() {
        lines += &format!("short {}\n", hex::text(short));
    }
    lines
}

#[derive(Default)]
struct Reader {
    /// The last time shown, which goes on.
    time: u64,
    /// Whether data are gathered for the operation that comes.
    gathered: bool,
}

impl Reader {
    fn line(&mut self, bytes: &RecordBytes) -> String {
        let read = Record::read(bytes);
        let words = match read.filter(|record| has_words(record, bytes)) {
            Some(record) => self.words(&record),
            None => vec!["record".into(), hex::text(bytes)],
        };
        if let Some(record) = read {
            self.gathered = gathered_after(&record, self.gathered);
        }
        words.join(" ") + "\n"
    }

    fn words(&mut self, record: &Record) -> Vec<String> {
        let mut words = operation_words(record);
        words.extend(self.data_words(record));
        if record.time != self.time {
            self.time = record.time;
            words.push(format!("at {}", record.time));
        }
        words
    }

    /// The data, of which an abort's code stands apart. With gathered data the code is among these.
    fn data_words(&self, record: &Record) -> Vec<String> {
        let data = record.data;
        let aborts = record.operation == Operation::Reply && aborts(record.flags);
        match data.split_first_chunk() {
            _ if data.is_empty() => vec![],
            Some((&code, [])) if aborts && !self.gathered => vec![code_text(code)],
            Some((&code, more)) if aborts && !self.gathered => {
                vec![code_text(code), hex::text(more)]
            }
            _ if aborts => vec!["data".into(), hex::text(data)],
            _ => vec![hex::text(data)],
        }
    }
}

/// Whether the words of a record give all of its bytes back: those that nobody looks at are 0, but
/// for the time, which has words in every record.
fn has_words(record: &Record, bytes: &RecordBytes) -> bool {
    let length_used = record.operation.takes_data() || record.data.is_empty();
    let mut lost = record.unused().filter(|place| !TIME.contains(place));
    length_used && lost.all(|place| bytes[place] == 0)
}

/// Whether the replay holds gathered data after a record, given whether it did before. A write, a DCF
/// and a reply use them up.
fn gathered_after(record: &Record, before: bool) -> bool {
    match record.operation {
        Operation::Gather => before || !record.data.is_empty(),
        Operation::Write | Operation::Dcf | Operation::Reply => false,
        Operation::Read | Operation::Tick | Operation::Ask => before,
    }
}

fn operation_words(record: &Record) -> Vec<String> {
    let node = record.node;
    let object = Object {
        index: record.index,
        sub_index: record.sub_index,
    };
    match record.operation {
        Operation::Write => vec![format!("write {node} {object}")],
        Operation::Read => vec![format!("read {node} {object}")],
        Operation::Dcf => vec![format!("dcf {node}")],
        Operation::Reply => {
            let mut words = vec![format!("reply {node}")];
            words.extend(sequence_words(record.index.to_le_bytes()));
            words.extend(flags_words(record.flags));
            words
        }
        Operation::Tick => vec!["tick".into()],
        Operation::Ask => vec!["ask".into()],
        Operation::Gather => vec!["gather".into()],
    }
}

fn sequence_words([octet_0, octet_1]: [u8; 2]) -> Vec<String> {
    let (answers, receive) = notation::number_and_state(octet_0);
    let (number, send) = notation::number_and_state(octet_1);
    let mut words = vec![format!("answers {answers} number {number}")];
    if [receive, send] != USUAL_STATES {
        words.push(notation::states_text([receive, send]));
    }
    words
}

fn flags_words(flags: u8) -> Vec<String> {
    if flags & RESERVED != 0 {
        return vec![format!("flags {flags:02X}")];
    }
    let mut words = vec![];
    if flags >= KIND_UNIT {
        words.push(KINDS[usize::from(flags / KIND_UNIT)]);
    }
    if flags & RESPONSE != 0 {
        words.push("response");
    }
    if flags & ABORT != 0 {
        words.push("abort");
    }
    words.into_iter().map(String::from).collect()
}

/// Whether the flags are shown in words, and the word `abort` is among these.
fn aborts(flags: u8) -> bool {
    flags & (ABORT | RESERVED) == ABORT
}

fn code_text(code: [u8; 4]) -> String {
    format!("{:08X}", u32::from_le_bytes(code))
}
