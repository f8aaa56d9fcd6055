//! A line of the replay as rows: one for each thing that came of the record, or one that says that nothing
//! did.

use crate::bad::Bad;
use crate::row::{head, head_alone, Row, Tone};
use crate::words::{self, Way};
use ostelumiv::Refusal;
use replay_line::{End, Line, Reason};

/// The operations by their numbers in document 01, which start at 1.
const OPERATIONS: [&str; 7] = ["write", "read", "dcf", "reply", "tick", "ask", "gather"];
const GATHER: u8 = 7;

pub fn rows(text: &[u8]) -> Result<Vec<Row>, Bad> {
    let line = replay_line::read(text).map_err(Bad::Expected)?;
    let mut rows = outcome(&line)?;
    // A gather that was taken says nothing, and a long job has hundreds of them.
    if rows.is_empty() && line.operation != Some(GATHER) {
        rows.push(Row::new(Tone::Quiet, String::new()));
    }
    let record = format!("{:>5}  {:<6}", line.record, operation(line.operation));
    let behind = |row: Row| Row::new(row.tone, format!("{record}  {}", row.text));
    Ok(rows.into_iter().map(behind).collect())
}

/// An operation that is none keeps its number, a record that was short has none.
fn operation(number: Option<u8>) -> String {
    match number {
        Some(number @ 1..=GATHER) => OPERATIONS[usize::from(number) - 1].into(),
        Some(number) => number.to_string(),
        None => "-".into(),
    }
}

fn outcome(line: &Line) -> Result<Vec<Row>, Bad> {
    let mut rows = vec![];
    if line.refusal != 0 {
        rows.push(refusal(line.refusal)?);
    }
    if let Some(sent) = &line.sent {
        rows.push(words::frame(Way::To(sent.node), &sent.bytes)?);
    }
    rows.extend(line.ends.iter().map(end));
    Ok(rows)
}

fn refusal(number: u8) -> Result<Row, Bad> {
    let refusal = Refusal::from_number(number);
    let refusal = refusal.ok_or(Bad::Expected("a refusal from 1 to 11, or 0, third"))?;
    let text = format!("{}  {refusal}", head_alone("refused"));
    Ok(Row::new(Tone::Trouble, text))
}

fn end(end: &End) -> Row {
    let tone = match end.reason {
        Reason::Complete => Tone::Good,
        _ => Tone::Trouble,
    };
    let head = head("end", end.node);
    let text = format!(
        "{head}  {:<12}  {} delivered",
        end.reason.name(),
        end.delivered
    );
    Row::new(tone, text)
}
