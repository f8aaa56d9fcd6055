//! A concise DCF's readable entries (document 01, "Bytes"), as far as a job's end depends on them.

pub use concise_dcf::{COUNT_BYTES, ENTRY_HEAD, SENT_HEAD};

/// The readable entries by their total, the bytes that each is sent as.
#[derive(Debug, Clone, PartialEq, Eq)]
pub struct Readable {
    pub totals: Vec<usize>,
    /// Whether these are as many as the DCF counts.
    pub whole: bool,
}

pub fn is_too_short(dcf: &[u8]) -> bool {
    dcf.len() < COUNT_BYTES
}

/// The readable entries; a DCF that is too short has none.
pub fn readable(dcf: &[u8]) -> Readable {
    let mut totals = Vec::new();
    let Some((count, mut rest)) = dcf.split_first_chunk::<COUNT_BYTES>() else {
        return Readable {
            totals,
            whole: false,
        };
    };
    let count = u32::from_le_bytes(*count) as usize;
    while totals.len() < count {
        let Some((head, after)) = rest.split_first_chunk::<ENTRY_HEAD>() else {
            break;
        };
        let size = u32::from_le_bytes([head[3], head[4], head[5], head[6]]) as usize;
        let Some(next) = after.get(size..) else {
            break;
        };
        totals.push(SENT_HEAD + size);
        rest = next;
    }
    let whole = totals.len() == count;
    Readable { totals, whole }
}

#[cfg(test)]
mod tests {
    use super::{is_too_short, readable};

    /// Document 01's P7: an entry with two bytes, and an empty one.
    const TWO: [u8; 20] = [
        2, 0, 0, 0, 0x00, 0x21, 1, 2, 0, 0, 0, 0x01, 0x04, 0x01, 0x21, 0, 0, 0, 0, 0,
    ];

    fn found(dcf: &[u8]) -> (Vec<usize>, bool) {
        let entries = readable(dcf);
        (entries.totals, entries.whole)
    }

    #[test]
    fn document_01() {
        assert_eq!(found(&TWO), (vec![6, 4], true));
        assert_eq!(found(&TWO[..19]), (vec![6], false));
        assert_eq!(found(&[0; 4]), (vec![], true));
    }

    #[test]
    fn a_count_ends_the_reading_and_what_follows_is_not_looked_at() {
        let mut one = TWO;
        one[0] = 1;
        assert_eq!(found(&one), (vec![6], true));
    }

    #[test]
    fn an_unreadable_entry_ends_the_reading() {
        let mut huge = TWO;
        huge[7..11].copy_from_slice(&[0xFF; 4]);
        assert_eq!(found(&huge), (vec![], false));
        assert_eq!(found(&TWO[..12]), (vec![], false));
        assert_eq!(found(&TWO[..13]), (vec![6], false));
    }

    #[test]
    fn under_four_bytes() {
        assert!(is_too_short(&TWO[..3]));
        assert!(!is_too_short(&TWO[..4]));
        assert_eq!(found(&TWO[..3]), (vec![], false));
    }
}
