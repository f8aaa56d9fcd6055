//! What was compared, by kind and by what came out, and what was not.

use crate::kinds::{self, Drawn, KINDS};
use crate::repair::{Answer, Refusal};

/// What can come out of a DCF; `place` has the order.
const OUTCOMES: [&str; 6] = [
    "refused 5",
    "refused 7",
    "unchanged",
    "only bytes dropped",
    "only the count changed",
    "both",
];

#[derive(Default)]
pub struct Counts {
    kinds: [usize; KINDS],
    outcomes: [usize; OUTCOMES.len()],
}

impl Counts {
    pub fn add(&mut self, drawn: &Drawn, answer: &Answer) {
        self.kinds[drawn.kind] += 1;
        self.outcomes[place(answer)] += 1;
    }

    pub fn in_all(&self) -> usize {
        self.kinds.iter().sum()
    }

    /// The kinds and outcomes that there was none of.
    pub fn never(&self) -> Vec<&'static str> {
        let named = self.outcomes().chain(self.kinds());
        let never = named.filter(|(_, count)| *count == 0);
        never.map(|(name, _)| name).collect()
    }

    /// All counts: in all, by what came out, and by kind, a line each.
    pub fn lines(&self) -> String {
        let [outcomes, kinds] = [listed(self.outcomes()), listed(self.kinds())];
        format!(
            "{} DCFs\n  came out: {outcomes}\n  drawn: {kinds}\n",
            self.in_all()
        )
    }

    fn outcomes(&self) -> impl Iterator<Item = (&'static str, usize)> + '_ {
        OUTCOMES.into_iter().zip(self.outcomes)
    }

    fn kinds(&self) -> impl Iterator<Item = (&'static str, usize)> + '_ {
        kinds::names().zip(self.kinds)
    }
}

fn place(answer: &Answer) -> usize {
    match &answer.0 {
        Err(Refusal::TooShort) => 0,
        Err(Refusal::TooLong) => 1,
        Ok(repaired) => {
            let counted = repaired.old_count == repaired.new_count;
            match (repaired.dropped, counted) {
                (0, true) => 2,
                (_, true) => 3,
                (0, false) => 4,
                (_, false) => 5,
            }
        }
    }
}

fn listed(counts: impl Iterator<Item = (&'static str, usize)>) -> String {
    let counts: Vec<_> = counts
        .map(|(name, count)| format!("{name}: {count}"))
        .collect();
    counts.join(", ")
}

#[cfg(test)]
mod tests {
    use super::{Counts, OUTCOMES};
    use crate::kinds::{self, Drawn, Rounds, KINDS};
    use crate::repair::repair;

    #[test]
    fn what_there_was_none_of_is_told() {
        let mut counts = Counts::default();
        assert_eq!(counts.never().len(), OUTCOMES.len() + KINDS);
        let drawn = Rounds::new(5).draw(1);
        let (first, others) = drawn.split_first().unwrap();
        for other in others {
            counts.add(other, &repair(&other.dcf));
        }
        let name = kinds::names().nth(first.kind).unwrap();
        assert!(counts.never().contains(&name), "{:?}", counts.never());
        assert_eq!(counts.in_all(), others.len());
        for drawn in Rounds::new(5).draw(1_000) {
            counts.add(&drawn, &repair(&drawn.dcf));
        }
        assert_eq!(counts.never(), [""; 0]);
    }

    #[test]
    fn every_outcome() {
        let mut counts = Counts::default();
        let entry = [1, 0, 0, 0, 9, 9, 9, 0, 0, 0, 0];
        let mut more = entry;
        more[0] = 2;
        let [after, both] = [entry, more].map(|dcf| [&dcf[..], &[1]].concat());
        let long = [0; 4_097];
        for dcf in [&entry[..3], &long, &entry, &after, &more, &both] {
            let drawn = Drawn {
                kind: 0,
                dcf: dcf.to_vec(),
            };
            counts.add(&drawn, &repair(dcf));
        }
        assert_eq!(counts.outcomes, [1; 6]);
    }
}
