//! The parts of a transfer (document 01, "Bytes"), by the limit up to which one begins Expedited. The
//! repository knows its own limit only. In published mode (document 02, CR 2) its commands are cut anew
//! here: each part gets the kind and the data size that it has by the other limit. The bytes of the part,
//! and everything else, stay the repository's.

use crate::client::Sent;
use crate::dcf::SENT_HEAD;
use crate::table::{Held, Table};
use oracle::{CommandId, Segmentation};

/// The most bytes of a part.
pub const MOST_PART: usize = 1_452;

/// The largest total that begins Expedited.
pub const REPOSITORY_LIMIT: usize = 1_456;
pub const PUBLISHED_LIMIT: usize = 1_452;

#[derive(Debug, Clone, Copy, PartialEq, Eq)]
pub struct Part {
    pub kind: Segmentation,
    pub length: usize,
    /// What an Initiate announces.
    pub data_size: Option<u32>,
}

/// The parts of a transfer, in the order in which they are sent.
pub fn parts(total: usize, limit: usize) -> Vec<Part> {
    let length = total.min(MOST_PART);
    let (kind, data_size) = match total <= limit {
        true => (Segmentation::Expedited, None),
        false => (Segmentation::Initiate, Some((total - SENT_HEAD) as u32)),
    };
    let mut parts = vec![Part {
        kind,
        length,
        data_size,
    }];
    let mut left = total - length;
    while left > 0 {
        let length = left.min(MOST_PART);
        left -= length;
        let kind = match left {
            0 => Segmentation::Complete,
            _ => Segmentation::Segment,
        };
        parts.push(Part {
            kind,
            length,
            data_size: None,
        });
    }
    parts
}

/// Cuts a command anew that sends or repeats a part; others stay as they are. `after` is the table after
/// the call. An error says that the repository cut the transfer at other places.
pub fn cut_anew(sent: &mut Sent, after: &Table, limit: usize) -> Result<(), String> {
    let (node, _, command) = sent;
    if command.header.command_id != CommandId::WriteByIndex {
        return Ok(());
    }
    let held = after.get(node.0);
    let held = held.ok_or_else(|| format!("a part goes to node {}, which is not held", node.0))?;
    let (kind, length) = (command.header.segmentation, command.payload.len());
    // Where nothing is left to send, what goes out is no part of the transfer.
    if length == 0 && kind == Segmentation::Complete && held.offset == held.total {
        return Ok(());
    }
    let part = part_sent(held, limit).filter(|part| part.length == length);
    let part = part.ok_or_else(|| {
        let (offset, total) = (held.offset, held.total);
        format!("no part of {length} bytes ends at {offset} of {total}")
    })?;
    command.header.segmentation = part.kind;
    command.data_size = part.data_size;
    Ok(())
}

/// The part that was sent last: it ends where the transfer stands.
fn part_sent(held: &Held, limit: usize) -> Option<Part> {
    let mut end = 0;
    parts(held.total, limit).into_iter().find(|part| {
        end += part.length;
        end == held.offset
    })
}

#[cfg(test)]
mod tests {
    use super::{cut_anew, parts, MOST_PART, PUBLISHED_LIMIT, REPOSITORY_LIMIT};
    use crate::client::{Answer, Client, Sent};
    use crate::gather::{Gather, Turn};
    use crate::generate;
    use crate::head::Modes;
    use crate::table::Table;
    use oracle::Segmentation::{self, Complete, Expedited, Initiate, Segment};
    use oracle::{CommandId, ObjectDictionary};
    use record::{Record, RECORD_BYTES};

    /// Kind and length of each part, and the data size of the first.
    type Cut<'a> = (Option<u32>, &'a [(Segmentation, usize)]);

    fn assert_cut(total: usize, limit: usize, (data_size, expected): Cut) {
        let parts = parts(total, limit);
        let found: Vec<_> = parts.iter().map(|part| (part.kind, part.length)).collect();
        assert_eq!(found, expected, "{total}");
        assert_eq!(parts[0].data_size, data_size, "{total}");
        assert!(parts[1..].iter().all(|part| part.data_size.is_none()));
    }

    /// Document 01's edges P1 to P6, and the shortest transfer.
    #[test]
    fn by_the_repositorys_limit() {
        for (total, cut) in [
            (4, (None, &[(Expedited, 4)][..])),
            (1_452, (None, &[(Expedited, 1_452)])),
            (1_453, (None, &[(Expedited, 1_452), (Complete, 1)])),
            (1_456, (None, &[(Expedited, 1_452), (Complete, 4)])),
            (1_457, (Some(1_453), &[(Initiate, 1_452), (Complete, 5)])),
            (
                2_904,
                (Some(2_900), &[(Initiate, 1_452), (Complete, 1_452)]),
            ),
            (
                2_905,
                (
                    Some(2_901),
                    &[(Initiate, 1_452), (Segment, 1_452), (Complete, 1)],
                ),
            ),
        ] {
            assert_cut(total, REPOSITORY_LIMIT, cut);
        }
    }

    #[test]
    fn by_the_published_limit() {
        for (total, cut) in [
            (4, (None, &[(Expedited, 4)][..])),
            (1_452, (None, &[(Expedited, 1_452)])),
            (1_453, (Some(1_449), &[(Initiate, 1_452), (Complete, 1)])),
            (1_456, (Some(1_452), &[(Initiate, 1_452), (Complete, 4)])),
            (1_457, (Some(1_453), &[(Initiate, 1_452), (Complete, 5)])),
            (
                2_904,
                (Some(2_900), &[(Initiate, 1_452), (Complete, 1_452)]),
            ),
            (
                2_905,
                (
                    Some(2_901),
                    &[(Initiate, 1_452), (Segment, 1_452), (Complete, 1)],
                ),
            ),
        ] {
            assert_cut(total, PUBLISHED_LIMIT, cut);
        }
    }

    #[test]
    fn the_limits_part_ways_from_1_453_to_1_456_alone() {
        for total in 4..=4_096 {
            let [theirs, other] =
                [REPOSITORY_LIMIT, PUBLISHED_LIMIT].map(|limit| parts(total, limit));
            assert_eq!(theirs[1..], other[1..], "{total}");
            assert_eq!(theirs[0] != other[0], (1_453..=1_456).contains(&total));
            assert!(other.iter().all(|part| part.length <= MOST_PART));
            let sum: usize = other.iter().map(|part| part.length).sum();
            assert_eq!(sum, total);
        }
    }

    /// What a client sends while it replays the records, with the table after each call.
    fn each_sent(
        parameters: ObjectDictionary,
        records: &[u8],
        mut take: impl FnMut(Sent, &mut Table),
    ) {
        let mut client = Client::new(parameters);
        let mut gather = Gather::default();
        for bytes in records.as_chunks::<RECORD_BYTES>().0 {
            let Turn::Call(call) = gather.turn(Record::read(bytes)) else {
                continue;
            };
            if let Ok(Answer {
                sent: Some(sent), ..
            }) = client.call(call)
            {
                take(sent, &mut client.table());
            }
        }
    }

    /// The bytes of the command.
    fn written((_, _, command): &Sent) -> Vec<u8> {
        let mut bytes = vec![0; 2 * MOST_PART];
        let length = command.serialize(&mut bytes).unwrap();
        bytes.truncate(length);
        bytes
    }

    #[test]
    fn by_its_own_limit_the_repositorys_commands_stay_as_they_are() {
        let mut later = 0;
        for seed in 0..80 {
            let run = generate::drawn(Modes::PUBLISHED, seed).unwrap();
            each_sent(run.head.parameters, &run.records, |mut sent, table| {
                let before = written(&sent);
                cut_anew(&mut sent, table, REPOSITORY_LIMIT).unwrap();
                assert_eq!(written(&sent), before, "seed {seed}");
                let header = &sent.2.header;
                let part = header.command_id == CommandId::WriteByIndex;
                later += usize::from(part && header.segmentation != Expedited);
            });
        }
        assert!(later > 100, "{later}");
    }

    #[test]
    fn a_part_that_ends_elsewhere_is_an_error() {
        let mut parts = 0;
        let run = generate::fixed_published().unwrap();
        each_sent(run.head.parameters, &run.records, |sent, table| {
            if sent.2.header.command_id != CommandId::WriteByIndex {
                return;
            }
            parts += 1;
            let error = |change: fn(&mut Sent, &mut Table)| {
                let (mut sent, mut table) = (sent.clone(), table.clone());
                change(&mut sent, &mut table);
                assert!(cut_anew(&mut sent, &table, PUBLISHED_LIMIT).is_err());
            };
            error(|sent, _| sent.2.payload.extend([0; 7]));
            error(|_, table| table.held[0].offset -= 1);
            error(|_, table| table.held.clear());
        });
        assert!(parts > 20, "{parts}");
    }
}
