//! The table that the benchmark prints.

use crate::callgrind::Cost;
use crate::cases::{CALLS, CASES};
use std::collections::HashMap;
use std::fmt::Write;

/// What a reader of the figures should know.
const NOTE: &str = "\
The Rust's command read copies the payload to the heap, and its freeing counts; ours answers a part of
the frame. Ours counts the wrapper and the C function that it calls.
";

/// A line for each case: instructions a call on either side, and their ratio.
pub fn text(costs: &HashMap<String, Cost>) -> Result<String, String> {
    let mut text = format!(
        "{:<28} {:>9} {:>9} {:>9}\n",
        "instructions a call", "ours", "Rust", "ours/Rust"
    );
    for case in CASES {
        let ours = each_call(costs, case.ours)?;
        let theirs = each_call(costs, case.theirs)?;
        // A String takes whatever is written to it.
        let _ = writeln!(
            text,
            "{:<28} {ours:>9.1} {theirs:>9.1} {:>9.2}",
            case.title,
            ours / theirs
        );
    }
    text.push_str(NOTE);
    Ok(text)
}

/// A function with another number of calls than were made has been merged with another one.
fn each_call(costs: &HashMap<String, Cost>, function: &str) -> Result<f64, String> {
    let cost = costs.get(function).copied().unwrap_or_default();
    if cost.calls != CALLS {
        return Err(format!("{} calls of {function}, not {CALLS}", cost.calls));
    }
    Ok(cost.instructions as f64 / CALLS as f64)
}
