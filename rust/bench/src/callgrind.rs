//! Runs this program under callgrind and reads the costs of its functions from what that writes.

use std::collections::HashMap;
use std::env;
use std::fs;
use std::process::Command;

/// How often a function was called, and the instructions of all its calls with what they called.
#[derive(Debug, Clone, Copy, Default, PartialEq, Eq)]
pub struct Cost {
    pub calls: u64,
    pub instructions: u64,
}

/// The costs by function, from one run with the given argument, by valgrind or what VALGRIND names. The file stays beside the program.
pub fn costs(argument: &str) -> Result<HashMap<String, Cost>, String> {
    let program = env::current_exe().map_err(|error| error.to_string())?;
    let file = program.with_file_name("bench.callgrind");
    let valgrind = env::var_os("VALGRIND").unwrap_or("valgrind".into());
    let status = Command::new(valgrind)
        .args(["--tool=callgrind", "--quiet", "--dump-instr=no"])
        // Names and lines in full, so that each line can be read by itself.
        .args(["--compress-strings=no", "--compress-pos=no"])
        .arg(format!("--callgrind-out-file={}", file.display()))
        .arg(&program)
        .arg(argument)
        .status()
        .map_err(|error| format!("valgrind: {error}"))?;
    if !status.success() {
        return Err(format!("valgrind: {status}"));
    }
    let text = fs::read(&file).map_err(|error| format!("{}: {error}", file.display()))?;
    parse(&String::from_utf8_lossy(&text))
}

/// A call stands in the file as `cfn=NAME`, then `calls=COUNT PLACE`, then `PLACE COST`.
fn parse(text: &str) -> Result<HashMap<String, Cost>, String> {
    let mut costs = HashMap::<String, Cost>::new();
    let mut name = "";
    let mut lines = text.lines();
    while let Some(line) = lines.next() {
        if let Some(called) = line.strip_prefix("cfn=") {
            name = called;
        } else if let Some(calls) = line.strip_prefix("calls=") {
            let cost = costs.entry(name.to_string()).or_default();
            cost.calls += number(calls, 0)?;
            cost.instructions += number(lines.next().unwrap_or(""), 1)?;
        }
    }
    Ok(costs)
}

/// The number at a place of a line of words.
fn number(line: &str, place: usize) -> Result<u64, String> {
    let word = line.split_whitespace().nth(place);
    word.and_then(|word| word.parse().ok())
        .ok_or_else(|| format!("callgrind wrote a line that has no number {place}: {line}"))
}

#[cfg(test)]
mod tests {
    use super::{parse, Cost};

    #[test]
    fn calls_from_several_places_are_added() {
        let text =
            "fn=main\n5 12\ncfi=a.rs\ncfn=read\ncalls=3 7\n6 30\n9 1\ncfn=read\ncalls=2 7\n9 20\n";
        let costs = parse(text).unwrap();
        let read = Cost {
            calls: 5,
            instructions: 50,
        };
        assert_eq!(costs.len(), 1);
        assert_eq!(costs["read"], read);
    }

    #[test]
    fn a_call_without_its_cost() {
        assert!(parse("cfn=read\ncalls=3 7\n").is_err());
    }
}
