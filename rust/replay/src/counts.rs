//! How often each rule was reached, as a table.

use crate::head::Modes;
use crate::rules::{self, Row, Rule, PUBLISHED, RULES};
use std::fmt::Write;

const ALL: usize = RULES.len() + PUBLISHED.len();

/// A count for each rule, at its place.
#[derive(Debug, Clone)]
pub struct Counts([u64; ALL]);

impl Default for Counts {
    fn default() -> Self {
        Self([0; ALL])
    }
}

impl Counts {
    pub fn reach(&mut self, rule: Rule) {
        self.0[rule as usize] += 1;
    }

    pub fn of(&self, rule: Rule) -> u64 {
        self.0[rule as usize]
    }

    pub fn add(&mut self, other: &Self) {
        for (sum, more) in self.0.iter_mut().zip(other.0) {
            *sum += more;
        }
    }

    /// The rules that runs in this mode are for, and that were never reached.
    pub fn missing(&self, modes: Modes) -> Vec<Rule> {
        let (_, missing) = self.parted(rules::rules_of(modes));
        missing.iter().map(|(_, rule, _)| *rule).collect()
    }

    /// These rules: those that were reached, and those that never were.
    pub fn parted(&self, rows: &[Row]) -> (Vec<Row>, Vec<Row>) {
        let rows = rows.iter();
        rows.partition(|(_, rule, _)| self.of(*rule) > 0)
    }

    /// The table, and the rules never reached after it.
    pub fn text(&self, modes: Modes) -> String {
        let mut text = String::new();
        let mut last = "";
        for (group, rule, words) in rules::rules_of(modes) {
            if *group != last {
                last = group;
                text.push_str(&format!("{group}\n"));
            }
            let count = self.of(*rule);
            writeln!(text, "{count:>9}  {words}").expect("a string takes any text");
        }
        text + &self.never(rules::rules_of(modes))
    }

    /// How many of these rules were never reached, and which.
    pub fn never(&self, rows: &[Row]) -> String {
        let (_, missing) = self.parted(rows);
        let [rules, never] = [rows, &missing].map(<[Row]>::len);
        let mut text = format!("{rules} rules, {never} never reached\n");
        for (group, _, words) in missing {
            text.push_str(&format!("  never: {group}: {words}\n"));
        }
        text
    }
}

#[cfg(test)]
mod tests {
    use super::Counts;
    use crate::head::Modes;
    use crate::rules::{Rule, PUBLISHED, RULES};

    #[test]
    fn a_rule_stands_at_its_own_place() {
        for (place, (_, rule, _)) in RULES.iter().chain(PUBLISHED).enumerate() {
            assert_eq!(*rule as usize, place);
        }
    }

    #[test]
    fn what_was_never_reached_is_listed() {
        let mut counts = Counts::default();
        for (_, rule, _) in RULES {
            if *rule != Rule::Limit {
                counts.reach(*rule);
            }
        }
        assert_eq!(counts.missing(Modes::REPOSITORY), [Rule::Limit]);
        let text = counts.text(Modes::REPOSITORY);
        assert!(text.contains("        0  65,535 records"));
        assert!(text.ends_with(
            "never: Replay: 65,535 records are read, and bytes past them are not looked at\n"
        ));
        counts.add(&counts.clone());
        let text = counts.text(Modes::REPOSITORY);
        assert!(text.contains("        2  operation 1, write"));
    }

    #[test]
    fn published_mode_has_rules_of_its_own() {
        let mut counts = Counts::default();
        counts.reach(Rule::Published1452);
        let missing = counts.missing(Modes::PUBLISHED);
        assert_eq!(missing.len(), PUBLISHED.len() - 1);
        assert!(!missing.contains(&Rule::Published1452));
        let text = counts.text(Modes::PUBLISHED);
        assert!(text.starts_with("Parts in published mode\n        0  Initiate with"));
        assert!(text.contains("13 rules, 12 never reached\n  never: Parts in published mode: "));
    }
}
