//! Standard input to standard output, in three forms: document 01's lines alone, as fast as the
//! repository allows; with a state line after each; and what each read brought that ended Complete.

use crate::client::{Answer, Client};
use crate::gather::{Gather, Turn};
use crate::head::{Head, HEAD_BYTES};
use crate::line;
use crate::refusal::Refusal;
use crate::watched::Watched;
use oracle::ObjectDictionary;
use record::{Record, RecordBytes, MOST_RECORDS, OPERATION, RECORD_BYTES};
use std::io::{self, Read, Write};

/// How much is read at once, and how much is gathered before it is written.
const PIECE: usize = 1 << 16;

/// What the input has next.
enum Next<'a> {
    Record(&'a RecordBytes),
    /// It ends inside a record.
    Short,
}

/// Document 01's lines of a trace, with both parameters absent. Nothing reads the state here but a
/// walk whose deadline would not fit.
pub fn plain(input: impl Read, output: impl Write) -> io::Result<()> {
    let mut client = Client::new(ObjectDictionary::default());
    let mut gather = Gather::default();
    run(input, output, |number, next, lines| {
        let (operation, outcome) = match next {
            Next::Short => (None, Err(Refusal::ShortRecord)),
            Next::Record(bytes) => {
                let outcome = match gather.turn(Record::read(bytes)) {
                    Turn::Refused(refusal) => Err(refusal),
                    Turn::Gathered => Ok(Answer::default()),
                    Turn::Call(call) => client.call(call),
                };
                (Some(bytes[OPERATION]), outcome)
            }
        };
        line::put_line(lines, number, operation, &outcome);
        Ok(())
    })
}

/// Two lines a record. The input begins with the head.
pub fn with_state(mut input: impl Read, output: impl Write) -> io::Result<()> {
    let mut head = [0; HEAD_BYTES];
    let read = input.read_exact(&mut head);
    read.map_err(|error| {
        let told = format!("the eleven bytes ahead of the records: {error}");
        io::Error::new(error.kind(), told)
    })?;
    let head = Head::read(&head).map_err(io::Error::other)?;
    let mut watched = Watched::new(head);
    run(input, output, |_, next, lines| match next {
        Next::Short => {
            watched.short(lines);
            Ok(())
        }
        Next::Record(bytes) => {
            let step = watched.step(bytes, lines);
            step.map(|_| ()).map_err(io::Error::other)
        }
    })
}

/// A line for each read that ends Complete, with both parameters absent.
pub fn values(input: impl Read, output: impl Write) -> io::Result<()> {
    let mut watched = Watched::new(Head::default());
    // The lines of a record, which nobody wants here.
    let mut unwanted = Vec::new();
    run(input, output, |number, next, lines| {
        if let Next::Record(bytes) = next {
            unwanted.clear();
            let step = watched.step(bytes, &mut unwanted);
            if let Some(value) = step.map_err(io::Error::other)?.read {
                line::put_value(lines, number, &value);
            }
        }
        Ok(())
    })
}

/// Hands over each record with its number, and writes the lines that are put.
fn run(
    mut input: impl Read,
    mut output: impl Write,
    mut take: impl FnMut(u32, Next, &mut Vec<u8>) -> io::Result<()>,
) -> io::Result<()> {
    let mut lines = Vec::with_capacity(2 * PIECE);
    each_record(&mut input, |number, next| {
        take(number, next, &mut lines)?;
        if lines.len() >= PIECE {
            output.write_all(&lines)?;
            lines.clear();
        }
        Ok(())
    })?;
    output.write_all(&lines)?;
    output.flush()
}

fn each_record(
    input: &mut impl Read,
    mut take: impl FnMut(u32, Next) -> io::Result<()>,
) -> io::Result<()> {
    let mut piece = vec![0; PIECE];
    let mut filled = 0;
    let mut number = 0;
    loop {
        let read = match input.read(&mut piece[filled..]) {
            Err(error) if error.kind() == io::ErrorKind::Interrupted => continue,
            read => read?,
        };
        if read == 0 {
            return match filled {
                0 => Ok(()),
                _ => take(number + 1, Next::Short),
            };
        }
        filled += read;
        let (records, rest) = piece[..filled].as_chunks::<RECORD_BYTES>();
        for record in records {
            number += 1;
            take(number, Next::Record(record))?;
            if number == MOST_RECORDS {
                return Ok(());
            }
        }
        let begin = filled - rest.len();
        piece.copy_within(begin..filled, 0);
        filled -= begin;
    }
}
