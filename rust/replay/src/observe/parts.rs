//! The rules of parts, decided by what was sent: as an ask sends them, and in published mode also as a tick
//! repeats them.

use super::Observer;
use crate::published::{MOST_PART, PUBLISHED_LIMIT, REPOSITORY_LIMIT};
use crate::rules::Rule;
use crate::table::{Held, State};
use oracle::{CommandId, SdoCommand, Segmentation};

impl Observer {
    /// The command that an ask got from a connection, whatever it is.
    pub(super) fn part(&mut self, held: &Held, command: &SdoCommand) {
        if command.header.command_id != CommandId::WriteByIndex {
            return;
        }
        let last = self.went_out(held, command);
        match held.state {
            State::Established => self.first_part(held, command),
            _ if command.payload.is_empty() => self.empty_part(held, last),
            _ => self.later_part(held, last, command),
        }
    }

    /// Remembers the kind of a part, and answers that of the node's part before it.
    fn went_out(&mut self, held: &Held, command: &SdoCommand) -> Option<Segmentation> {
        self.last_part[usize::from(held.node)].replace(command.header.segmentation)
    }

    fn first_part(&mut self, held: &Held, command: &SdoCommand) {
        self.reach(match command.header.segmentation {
            Segmentation::Initiate => Rule::PartInitiate,
            _ if command.payload.len() == held.total => Rule::PartExpedited,
            _ => Rule::PartExpeditedFirst,
        });
        if self.modes.published {
            self.published_first(held, command);
        }
        self.reach(match held.total {
            4 => Rule::Total4,
            1_452 => Rule::Total1452,
            1_453 => Rule::Total1453,
            1_456 => Rule::Total1456,
            1_457 => Rule::Total1457,
            2_904 => Rule::Total2904,
            2_905 => Rule::Total2905,
            4_096 => Rule::Total4096,
            _ => return,
        });
    }

    fn published_first(&mut self, held: &Held, command: &SdoCommand) {
        let kind = command.header.segmentation;
        if kind == Segmentation::Initiate && straddles(held.total) {
            self.reach(match held.dcf {
                Some(_) => Rule::PublishedEntry,
                None => Rule::PublishedWrite,
            });
        }
        self.reach(match (held.total, kind, command.data_size) {
            (1_452, Segmentation::Expedited, _) => Rule::Published1452,
            (1_453, Segmentation::Initiate, Some(1_449)) => Rule::Published1453,
            (1_456, Segmentation::Initiate, Some(1_452)) => Rule::Published1456,
            (1_457, Segmentation::Initiate, Some(1_453)) => Rule::Published1457,
            (2_904, Segmentation::Initiate, Some(2_900)) => Rule::Published2904,
            (2_905, Segmentation::Initiate, Some(2_901)) => Rule::Published2905,
            _ => return,
        });
    }

    fn later_part(&mut self, held: &Held, last: Option<Segmentation>, command: &SdoCommand) {
        let kind = command.header.segmentation;
        self.reach(match (kind, last) {
            (Segmentation::Segment, _) => Rule::PartSegment,
            (_, Some(Segmentation::Expedited)) => Rule::PartCompleteAfterExpedited,
            _ => Rule::PartComplete,
        });
        if kind != Segmentation::Complete {
            return;
        }
        if command.payload.len() == MOST_PART {
            self.reach(Rule::PartCompleteFull);
        }
        let announced = last == Some(Segmentation::Initiate);
        if self.modes.published && announced && straddles(held.total) {
            self.reach(Rule::PublishedComplete);
        }
    }

    /// A Complete without bytes, which goes out where nothing is left to send.
    fn empty_part(&mut self, held: &Held, last: Option<Segmentation>) {
        if !self.modes.published {
            return;
        }
        if last == Some(Segmentation::Expedited) {
            self.reach(Rule::PublishedEmptyAfterExpedited);
        } else if straddles(held.total) {
            self.reach(Rule::PublishedEmpty);
        }
    }

    /// The command that a tick got from a connection, whatever it is.
    pub(super) fn repeated(&mut self, held: &Held, command: &SdoCommand) {
        if command.header.command_id != CommandId::WriteByIndex {
            return;
        }
        self.went_out(held, command);
        if !self.modes.published || !straddles(held.total) {
            return;
        }
        self.reach(match command.header.segmentation {
            Segmentation::Initiate => Rule::PublishedRepeated,
            Segmentation::Complete if !command.payload.is_empty() => {
                Rule::PublishedCompleteRepeated
            }
            _ => return,
        });
    }
}

/// Whether a transfer begins with another kind by each of the limits.
fn straddles(total: usize) -> bool {
    PUBLISHED_LIMIT < total && total <= REPOSITORY_LIMIT
}

#[cfg(test)]
mod tests {
    use crate::counts::Counts;
    use crate::generate;
    use crate::head::{Head, Modes};
    use crate::observe::Observer;
    use crate::rules::{Rule, NOT_PUBLISHED};
    use crate::watched::Watched;
    use record::RECORD_BYTES;

    /// What is counted for published mode where the parts go out as this mode has them.
    fn counted(sent: Modes) -> Counts {
        let run = generate::fixed_published().unwrap();
        let [sent, counted] = [sent, Modes::PUBLISHED].map(|modes| Head { modes, ..run.head });
        let mut watched = Watched::new(sent);
        let mut observer = Observer::new(&counted);
        let mut lines = Vec::new();
        for bytes in run.records.as_chunks::<RECORD_BYTES>().0 {
            observer.see(&watched.step(bytes, &mut lines).unwrap());
        }
        observer.counts().clone()
    }

    #[test]
    fn parts_are_counted_as_they_were_sent() {
        let [theirs, published] = [Modes::REPOSITORY, Modes::PUBLISHED].map(counted);
        for rule in NOT_PUBLISHED {
            assert!(theirs.of(rule) > 0, "{rule:?}");
            assert_eq!(published.of(rule), 0, "{rule:?}");
        }
        for rule in [
            Rule::PublishedWrite,
            Rule::PublishedEntry,
            Rule::PublishedRepeated,
            Rule::PublishedComplete,
        ] {
            assert_eq!(theirs.of(rule), 0, "{rule:?}");
            assert!(published.of(rule) > 0, "{rule:?}");
        }
    }
}
