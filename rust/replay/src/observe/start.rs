//! The rules of starts.

use super::Observer;
use crate::client::{Job, MOST_BYTES};
use crate::dcf::{self, COUNT_BYTES, ENTRY_HEAD, SENT_HEAD};
use crate::refusal::Refusal;
use crate::rules::Rule;
use crate::watched::Step;

/// The most data bytes of a write.
const MOST_WRITTEN: usize = MOST_BYTES - SENT_HEAD;

impl Observer {
    pub(super) fn started(&mut self, node: u8, time: u64, job: &Job, step: &Step) {
        let new = step.before.get(node).is_none();
        self.reach(match (job, new) {
            (Job::Write { .. }, true) => Rule::WriteOnNew,
            (Job::Write { .. }, false) => Rule::WriteOnIdle,
            (Job::Read { .. }, true) => Rule::ReadOnNew,
            (Job::Read { .. }, false) => Rule::ReadOnIdle,
            (Job::Dcf(_), true) => Rule::DcfOnNew,
            (Job::Dcf(_), false) => Rule::DcfOnIdle,
        });
        self.number(step);
        self.refused[usize::from(node)] = None;
        if self.ended[usize::from(node)] {
            self.reach(Rule::StartedAgain);
        }
        if self.deadline(time) == Some(u64::MAX) {
            self.reach(Rule::DeadlineFits);
        }
        match job {
            Job::Write { data, .. } if data.is_empty() => self.reach(Rule::WriteEmpty),
            Job::Write { data, .. } if data.len() == MOST_WRITTEN => self.reach(Rule::Write4092),
            Job::Dcf(dcf) => self.dcf(dcf, step.after.transaction == u8::MAX),
            _ => {}
        }
    }

    /// A transaction number was taken.
    fn number(&mut self, step: &Step) {
        self.reach(match step.before.transaction {
            u8::MAX => Rule::NumberRound,
            _ => Rule::NumberTaken,
        });
    }

    /// A DCF that was started with the transaction number 255, or another.
    fn dcf(&mut self, dcf: &[u8], last_number: bool) {
        let entries = dcf::readable(dcf);
        let loaded = !entries.totals.is_empty();
        let read: usize = entries.totals.iter().sum();
        // An entry stands in the DCF with a longer head than it is sent with.
        let read = COUNT_BYTES + read + entries.totals.len() * (ENTRY_HEAD - SENT_HEAD);
        let rest = &dcf[read..];
        if dcf.len() == MOST_BYTES {
            self.reach(Rule::Dcf4096);
        }
        self.reach(match (entries.whole, rest.len()) {
            (true, 0) => Rule::DcfWhole,
            (true, _) => Rule::DcfTrailing,
            (false, 0) => Rule::DcfOverCounted,
            (false, ..ENTRY_HEAD) => Rule::DcfHeadCut,
            (false, _) => Rule::DcfDataCut,
        });
        self.reach(match (loaded, entries.whole) {
            (true, _) => Rule::FirstLoaded,
            (false, true) => Rule::FirstNotCounted,
            (false, false) if rest.len() < ENTRY_HEAD => Rule::FirstHeadCut,
            (false, false) => Rule::FirstDataCut,
        });
        if !entries.whole && rest.get(ENTRY_HEAD - 1).is_some_and(|byte| *byte >= 0x80) {
            self.reach(Rule::DcfHugeSize);
        }
        if entries.totals.contains(&SENT_HEAD) {
            self.reach(Rule::DcfEmptyEntry);
        }
        if loaded && last_number {
            self.reach(Rule::LoadRoundAtStart);
        }
    }

    pub(super) fn refused_start(
        &mut self,
        node: u8,
        time: u64,
        job: &Job,
        refusal: Refusal,
        step: &Step,
    ) {
        let short = job.is_short_dcf();
        let long = job.bytes() > MOST_BYTES;
        let late = self.deadline(time).is_none();
        match refusal {
            Refusal::TableFull => {
                self.reach(by_job(job, Rule::FullWrite, Rule::FullRead, Rule::FullDcf));
                self.reach_where([
                    (short, Rule::FullAheadOfShort),
                    (long, Rule::FullAheadOfNoRoom),
                    (late, Rule::FullAheadOfDeadline),
                ]);
            }
            Refusal::Busy => {
                self.reach(by_job(job, Rule::BusyWrite, Rule::BusyRead, Rule::BusyDcf));
                self.number(step);
                self.reach_where([
                    (takes_number(step), Rule::BusyTakesNumber),
                    (short, Rule::BusyAheadOfShort),
                    (long, Rule::BusyAheadOfNoRoom),
                    (late, Rule::BusyAheadOfDeadline),
                ]);
            }
            Refusal::DcfTooShort => self.too_short(node, late, step),
            Refusal::NoRoom => self.no_room(job, late),
            Refusal::DeadlineRange => {
                let (write, read) = (Rule::DeadlineWrite, Rule::DeadlineRead);
                self.reach(by_job(job, write, read, Rule::DeadlineDcf));
            }
            Refusal::BadRecord | Refusal::ShortRecord => {}
        }
    }

    fn too_short(&mut self, node: u8, late: bool, step: &Step) {
        let entered = step.before.get(node).is_none();
        let held = step.after.get(node);
        let numbers = held.map(|held| (held.transaction, held.send, held.last));
        self.number(step);
        self.reach_where([
            (entered, Rule::ShortNew),
            (!entered, Rule::ShortIdle),
            (entered && numbers == Some((0, 0, 63)), Rule::New),
            (takes_number(step), Rule::ShortTakesNumber),
            (late, Rule::ShortAheadOfDeadline),
        ]);
    }

    /// A read has no job bytes.
    fn no_room(&mut self, job: &Job, late: bool) {
        let dcf = matches!(job, Job::Dcf(_));
        let just = matches!(job, Job::Write { data, .. } if data.len() == MOST_WRITTEN + 1);
        self.reach_where([
            (dcf, Rule::NoRoomDcf),
            (!dcf, Rule::NoRoomWrite),
            (just, Rule::NoRoomWrite4093),
            (late, Rule::NoRoomAheadOfDeadline),
        ]);
    }

    fn reach_where<const N: usize>(&mut self, rules: [(bool, Rule); N]) {
        for (holds, rule) in rules {
            if holds {
                self.reach(rule);
            }
        }
    }
}

fn takes_number(step: &Step) -> bool {
    step.after.transaction != step.before.transaction
}

fn by_job(job: &Job, write: Rule, read: Rule, dcf: Rule) -> Rule {
    match job {
        Job::Write { .. } => write,
        Job::Read { .. } => read,
        Job::Dcf(_) => dcf,
    }
}
