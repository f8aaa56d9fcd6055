//! Our replay programs against the oracle: drawn traces go to both, and every line is compared.

use crate::counts::Counts;
use crate::cover::{self, Covered};
use crate::difference::{difference, Numbering};
use crate::generate::Run;
use crate::head::Modes;
use crate::rules::{self, Row, Rule, PUBLISHED};
use program::proved::Program;
use std::fmt::Write as _;
use std::io::{self, Write};

/// After how many traces that differ the comparison is enough.
const MOST_DIFFERENT: usize = 5;

/// The reads that a comparison of values is for, by the rules that they reach.
const READS: [(Rule, &str); 5] = [
    (Rule::EndRead, "in all"),
    (Rule::UploadExpedited, "Expedited"),
    (Rule::UploadComplete, "segmented"),
    (Rule::UploadNothing, "empty"),
    (Rule::Upload4096, "of 4,096 bytes"),
];

/// What stands ahead of the rules for which published mode fails, even where no line differs.
const NOT_ENOUGH: &str = "NOT ENOUGH: rules of published mode were never reached";
const WRONG: &str = "WRONG: published mode reached rules of document 01 that it must not";

/// What a program prints of a trace.
#[derive(Debug, Clone, Copy, PartialEq, Eq)]
enum Prints {
    /// A line and a state line for each record. The head stands ahead of the trace.
    States,
    /// A line for each record.
    Lines,
    /// A line for each read that ended Complete.
    Values,
}

/// A program, or why it is not there, and what was compared with it.
struct Side {
    program: Result<Program, String>,
    prints: Prints,
    modes: Modes,
    /// The lines that are the same, and those that are not.
    lines: [usize; 2],
    /// The traces that differ.
    different: usize,
    /// What the traces reach that were compared.
    counts: Counts,
}

impl Side {
    fn new(name: &'static str, prints: Prints, modes: Modes) -> Self {
        Self {
            program: Program::find(name),
            prints,
            modes,
            lines: [0; 2],
            different: 0,
            counts: Counts::default(),
        }
    }

    /// Whether the program can be run on the trace: only replay_states takes a head.
    fn takes(&self, run: &Run) -> bool {
        self.prints == Prints::States || run.head.is_plain()
    }

    /// The program, and its mode where it is not the repository's.
    fn name(&self, program: &Program) -> String {
        let mode = match self.modes.published {
            true => ", published mode",
            false => "",
        };
        format!("{}{mode}", program.name)
    }

    /// Compares the program's lines with the oracle's, and writes the first that differ.
    fn compare(&mut self, trace: &str, run: &Run, out: &mut impl Write) -> io::Result<()> {
        let Ok(program) = &self.program else {
            return Ok(());
        };
        if self.different >= MOST_DIFFERENT || !self.takes(run) {
            return Ok(());
        }
        let (rust, input, numbering) = match self.prints {
            Prints::States => (&run.lines, run.with_head(), Numbering::Place(2)),
            Prints::Lines => (&run.plain_lines(), run.records.clone(), Numbering::Place(1)),
            Prints::Values => (&run.values, run.records.clone(), Numbering::Own),
        };
        self.counts.add(&run.counts);
        match difference(rust, program.output(&input), numbering) {
            Ok(same) => {
                self.lines[0] += same;
                Ok(())
            }
            Err(difference) => {
                self.different += 1;
                self.lines[1] += difference.lines();
                let text = difference.text(&self.name(program), trace, &run.records);
                out.write_all(text.as_bytes())
            }
        }
    }

    /// Whether something was compared, and all of it was the same, with no complaint.
    fn is_well(&self) -> bool {
        self.lines[0] > 0 && self.different == 0 && self.complaint().is_empty()
    }

    /// Published mode must reach each of its rules, else the run would not tell it from repository mode; and
    /// none that it rules out. Where nothing was compared, the report says so.
    fn complaint(&self) -> String {
        if !self.modes.published || self.lines[0] == 0 {
            return String::new();
        }
        let (_, missing) = self.counts.parted(PUBLISHED);
        let (_, ruled_out) = rules::parted_by_published();
        let (wrong, _) = self.counts.parted(&ruled_out);
        listed(NOT_ENOUGH, &missing) + &listed(WRONG, &wrong)
    }

    /// What was compared.
    fn report(&self) -> String {
        let ([same, differ], different) = (self.lines, self.different);
        let name = match &self.program {
            Err(missing) => return format!("NOT COMPARED: {missing}\n"),
            Ok(program) => self.name(program),
        };
        if same + different == 0 {
            return format!("NOT COMPARED: no trace has a line for {name}\n");
        }
        let enough = if different == MOST_DIFFERENT {
            ", and no more were compared"
        } else {
            ""
        };
        let reached = match self.prints {
            Prints::Values => reads(&self.counts),
            Prints::States if self.modes.published => published_rules(&self.counts),
            Prints::States | Prints::Lines => String::new(),
        };
        format!(
            "{name}: {same} lines are the same, {differ} differ; traces that differ: {different}{enough}\n{reached}"
        )
    }
}

/// How many reads of each kind were compared, and the kinds of which there was none.
fn reads(counts: &Counts) -> String {
    let mut text = "reads that ended Complete in the traces compared\n".to_string();
    let mut never = String::new();
    for (rule, kind) in READS {
        let count = counts.of(rule);
        writeln!(text, "{count:>9}  {kind}").expect("a string takes any text");
        if count == 0 {
            never.push_str(&format!("  never: {kind}\n"));
        }
    }
    text + &never
}

/// How often each rule of published mode was reached, and which of document 01's were not that it may reach.
fn published_rules(counts: &Counts) -> String {
    let table = counts.text(Modes::PUBLISHED);
    let (may_reach, _) = rules::parted_by_published();
    format!("{table}of document 01: {}", counts.never(&may_reach))
}

/// What is told of these rules, a line each behind it; nothing where there is none.
fn listed(told: &str, rows: &[Row]) -> String {
    if rows.is_empty() {
        return String::new();
    }
    let mut text = format!("{told}\n");
    for (group, _, words) in rows {
        text.push_str(&format!("  {group}: {words}\n"));
    }
    text
}

/// Compares over so many records, and writes the table of what they reached; then over as many in
/// published mode. It answers whether all programs were compared, nothing differed, and published mode
/// reached each of its rules and none that it must not.
pub fn run(records: usize, first_seed: u64, out: &mut impl Write) -> io::Result<bool> {
    let side = |name, prints| Side::new(name, prints, Modes::REPOSITORY);
    let mut sides = [
        side("replay_states", Prints::States),
        side("replay", Prints::Lines),
        side("values", Prints::Values),
    ];
    let covered = compare_all(&mut sides, records, first_seed, out)?;
    out.write_all(covered.text().as_bytes())?;
    for side in &sides {
        out.write_all(side.report().as_bytes())?;
    }
    let mut published = [Side::new("replay_states", Prints::States, Modes::PUBLISHED)];
    let covered = compare_all(&mut published, records, first_seed, out)?;
    for side in &published {
        out.write_all(side.report().as_bytes())?;
    }
    out.write_all(covered.size().as_bytes())?;
    for side in &published {
        out.write_all(side.complaint().as_bytes())?;
    }
    Ok(sides.iter().chain(&published).all(Side::is_well))
}

/// Hands every trace that is drawn for the mode of these sides to each of them.
fn compare_all(
    sides: &mut [Side],
    records: usize,
    first_seed: u64,
    out: &mut impl Write,
) -> io::Result<Covered> {
    let modes = sides[0].modes;
    cover::each_trace(modes, records, first_seed, |trace, run| {
        for side in &mut *sides {
            side.compare(trace, run, out)?;
        }
        Ok(())
    })
}

#[cfg(test)]
mod tests {
    use super::{published_rules, reads, Prints, Side};
    use crate::counts::Counts;
    use crate::head::Modes;
    use crate::rules::{Rule, NOT_PUBLISHED, PUBLISHED, RULES};

    #[test]
    fn a_kind_of_read_that_was_never_reached_is_told() {
        let mut counts = Counts::default();
        for rule in [
            Rule::EndRead,
            Rule::EndRead,
            Rule::UploadExpedited,
            Rule::UploadComplete,
            Rule::UploadNothing,
        ] {
            counts.reach(rule);
        }
        let expected = "\
reads that ended Complete in the traces compared
        2  in all
        1  Expedited
        1  segmented
        1  empty
        0  of 4,096 bytes
  never: of 4,096 bytes
";
        assert_eq!(reads(&counts), expected);
    }

    #[test]
    fn published_mode_must_reach_each_of_its_rules() {
        for (modes, passes) in [(Modes::REPOSITORY, true), (Modes::PUBLISHED, false)] {
            let mut side = Side::new("replay_states", Prints::States, modes);
            assert!(!side.is_well());
            side.lines = [2, 0];
            assert_eq!(side.is_well(), passes);
            for (_, rule, _) in PUBLISHED {
                assert_eq!(side.is_well(), passes);
                side.counts.reach(*rule);
            }
            assert!(side.is_well());
        }
    }

    /// A side in published mode that reached each rule but this one.
    fn published_without(left_out: Option<Rule>) -> Side {
        let mut side = Side::new("replay_states", Prints::States, Modes::PUBLISHED);
        side.lines = [2, 0];
        for (_, rule, _) in PUBLISHED {
            if Some(*rule) != left_out {
                side.counts.reach(*rule);
            }
        }
        side
    }

    #[test]
    fn a_rule_that_published_mode_never_reached_is_told() {
        let side = published_without(Some(Rule::Published1452));
        let expected = "\
NOT ENOUGH: rules of published mode were never reached
  Parts in published mode: total 1,452: Expedited
";
        assert_eq!(side.complaint(), expected);
        assert!(!side.is_well());
    }

    #[test]
    fn a_rule_that_published_mode_must_not_reach_fails() {
        for rule in NOT_PUBLISHED {
            let mut side = published_without(None);
            assert!(side.is_well());
            side.counts.reach(rule);
            let told =
                "WRONG: published mode reached rules of document 01 that it must not\n  Parts: ";
            assert!(side.complaint().starts_with(told), "{rule:?}");
            assert!(!side.is_well(), "{rule:?}");
        }
    }

    #[test]
    fn what_published_mode_must_not_reach_is_not_listed_as_never_reached() {
        let mut counts = Counts::default();
        for (_, rule, _) in RULES {
            if !NOT_PUBLISHED.contains(rule) {
                counts.reach(*rule);
            }
        }
        let text = published_rules(&counts);
        assert!(
            text.ends_with("of document 01: 208 rules, 0 never reached\n"),
            "{text}"
        );
    }
}
