//! The rules of tick and ask: of each connection that the walk came to, and of the walk.

use super::Observer;
use crate::rules::Rule;
use crate::table::{Held, State};
use crate::watched::Step;
use oracle::{NodeId, SdoCommand};

impl Observer {
    pub(super) fn tick(&mut self, time: u64, step: &Step) {
        let Ok(answer) = &step.outcome else {
            return self.reach(Rule::DeadlineTick);
        };
        let giver = answer.sent.as_ref().map(|(node, ..)| node.0);
        for held in reached(step, giver) {
            self.ticked(held, time, giver);
        }
        let Some((NodeId(giver), _, command)) = answer.sent.as_ref() else {
            return;
        };
        let giver = *giver;
        if let Some(held) = step.before.get(giver) {
            self.repeated(held, command);
        }
        if step.before.held[0].node < giver {
            self.reach(Rule::TickPassesOver);
        }
        let mut later = step.before.held.iter().filter(|held| held.node > giver);
        if later.any(|held| held.gives_at_tick(time)) {
            self.reach(Rule::TickStops);
        }
        if self.deadline(time).is_none() {
            self.reach(Rule::AbortSetsNone);
        }
        let set = step.after.get(giver).and_then(|held| held.deadline);
        if set == Some(u64::MAX) {
            self.reach(Rule::DeadlineFits);
        }
    }

    /// A connection that a tick came to.
    fn ticked(&mut self, held: &Held, time: u64, giver: Option<u8>) {
        let Some(deadline) = held.deadline else {
            return self.reach(Rule::TickNoDeadline);
        };
        if time < deadline {
            if time + 1 == deadline {
                self.reach(Rule::TickJustBefore);
            }
            return self.reach(Rule::TickBefore);
        }
        self.reach(if time == deadline {
            Rule::TickAt
        } else {
            Rule::TickAfter
        });
        let sent = held.outstanding.is_some();
        self.reach(match (held.retries > 0, held.state) {
            (true, _) if !sent => Rule::RepeatNothingSent,
            (true, State::DownloadInProgress) => Rule::RepeatDownload,
            (true, State::UploadInit) => Rule::RepeatUploadInit,
            (true, State::UploadInProgress) => Rule::RepeatUpload,
            (true, _) => Rule::RepeatOpening,
            (false, _) if !sent => Rule::TimeoutNothingSent,
            (false, State::DownloadInProgress) => Rule::TimeoutDownload,
            (false, State::UploadInit) => Rule::TimeoutUploadInit,
            (false, State::UploadInProgress) => Rule::TimeoutUpload,
            (false, _) => Rule::TimeoutOpening,
        });
        if !held.gives_at_tick(time) && giver.is_some() {
            self.reach(Rule::TickGoesOn);
        }
    }

    pub(super) fn ask(&mut self, time: u64, step: &Step) {
        let Ok(answer) = &step.outcome else {
            return self.refused_ask(step);
        };
        let giver = answer.sent.as_ref().map(|(node, ..)| node.0);
        for held in reached(step, giver) {
            self.asked(held, giver);
        }
        let Some((node, _, command)) = &answer.sent else {
            return;
        };
        if let Some(held) = step.before.get(node.0) {
            self.gave(held, command);
        }
        if step.before.held[0].node < node.0 {
            self.reach(Rule::AskPassesOver);
        }
        let mut later = step.before.held.iter().filter(|held| held.node > node.0);
        if later.any(Held::gives) {
            self.reach(Rule::AskStops);
        }
        if self.deadline(time) == Some(u64::MAX) {
            self.reach(Rule::DeadlineFits);
        }
    }

    fn refused_ask(&mut self, step: &Step) {
        self.reach(Rule::DeadlineAsk);
        let mut earlier = step.before.held.iter().take_while(|held| !held.gives());
        if earlier.any(Held::ends_at_ask) {
            self.reach(Rule::AskRefusedWhole);
        }
    }

    /// A connection that an ask came to.
    fn asked(&mut self, held: &Held, giver: Option<u8>) {
        if held.outstanding.is_some() {
            self.reach(Rule::AskOutstanding);
        } else if held.state == State::Idle {
            self.reach(Rule::AskIdle);
        } else if held.state == State::UploadInit {
            self.reach(Rule::AskStuck);
        } else if held.ends_at_ask() && giver != Some(held.node) {
            self.reach(Rule::AskEnds);
        }
    }

    /// The command that an ask got from a connection.
    fn gave(&mut self, held: &Held, command: &SdoCommand) {
        self.reach(match held.state {
            State::Opening if held.send == 0 => Rule::AskOpening,
            State::Opening => Rule::AskOpeningAgain,
            State::Established if held.read_waits => Rule::AskRead,
            State::Established => Rule::AskFirstPart,
            State::UploadInProgress => Rule::AskSegment,
            _ if held.offset >= held.total => Rule::AskEmptyPart,
            _ => Rule::AskNextPart,
        });
        if held.send == 63 {
            self.reach(Rule::SendRound);
        }
        self.part(held, command);
    }
}

/// The connections that a walk came to: those up to the one that gave a command.
fn reached(step: &Step, giver: Option<u8>) -> impl Iterator<Item = &Held> {
    let held = step.before.held.iter();
    held.filter(move |held| giver.is_none_or(|giver| held.node <= giver))
}
