//! The concise DCF: the entries that the wrapper reads against what the repository's connection sends
//! for the same bytes, and whether all counted entries were among them.

use crate::answers::{ours, theirs};
use crate::tally::{Hex, Report, Tally};
use concise_dcf::{count, draw, sent_entries};
use ostelumiv::ConciseDcf;
use rng::Rng;

/// What each entry is sent as, and whether that is all that the DCF counts.
type Outcome = Result<(Vec<Vec<u8>>, bool), u8>;

pub fn compare(report: &mut Report) {
    report.add(every_cut());
    report.add(counts());
    report.add(huge_sizes());
    report.add(long_entries());
    report.add(drawn());
}

/// Small DCFs, cut at every place, from the whole one down to none.
fn every_cut() -> Tally {
    let mut tally = Tally::new("concise DCF, cut at every place");
    let mut rng = Rng::new(40);
    for _ in 0..2_000 {
        for cut in draw::every_cut(&draw::small(&mut rng)) {
            same(&mut tally, cut);
        }
    }
    tally
}

/// DCFs that count fewer or more entries than they hold, with and without bytes after them.
fn counts() -> Tally {
    let mut tally = Tally::new("concise DCF, count off and bytes after");
    let mut rng = Rng::new(41);
    for _ in 0..20_000 {
        let dcf = draw::counting(&mut rng, |rng, held| {
            rng.pick(&[0, 1, held, held + 1, held + 2, 256, u32::MAX])
        });
        same(&mut tally, &dcf);
    }
    tally
}

/// An entry whose size is near 2^32, near 2^31, or on either side of what is there.
fn huge_sizes() -> Tally {
    let mut tally = Tally::new("concise DCF, sizes near 2^32 and near the end");
    let mut rng = Rng::new(42);
    for _ in 0..40_000 {
        let dcf = draw::sized(&mut rng, |rng, [data, begin, end]| {
            rng.pick(&[0, 1 << 31, data, begin, end])
        });
        same(&mut tally, &dcf);
    }
    tally
}

/// Entries that go out in several parts; some lose their tail.
fn long_entries() -> Tally {
    let mut tally = Tally::new("concise DCF, long entries");
    let mut rng = Rng::new(43);
    for turn in 0..6_000 {
        same(&mut tally, &draw::long_entries(&mut rng, turn));
    }
    tally
}

fn drawn() -> Tally {
    let mut tally = Tally::new("concise DCF, drawn bytes");
    let mut rng = Rng::new(44);
    for _ in 0..60_000 {
        same(&mut tally, &draw::mostly_zeros(&mut rng));
    }
    tally
}

fn same(tally: &mut Tally, dcf: &[u8]) {
    tally.same(&our_outcome(dcf), &their_outcome(dcf), Hex(dcf));
}

fn our_outcome(bytes: &[u8]) -> Outcome {
    let dcf = ours(ConciseDcf::new(bytes))?;
    let sent = dcf.entries().map(|entry| {
        let [low, high] = entry.index.to_le_bytes();
        [&[low, high, entry.sub_index, 0], entry.data].concat()
    });
    Ok((sent.collect(), dcf.is_complete()))
}

/// The repository does not say whether it was all; that is whether it sent as many as are counted.
fn their_outcome(bytes: &[u8]) -> Outcome {
    let entries = theirs(sent_entries(bytes))?;
    let complete = count(bytes) == Some(entries.len() as u32);
    Ok((entries, complete))
}
