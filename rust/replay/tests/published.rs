//! The oracle's lines in published mode beside those in repository mode, on the same records: all that
//! differs is how a transfer of 1,453 to 1,456 bytes begins.

#![cfg(has_oracle)]

use replay_oracle::head::Modes;
use replay_oracle::{generate, stream};

/// Where the eleventh byte stands, and where flags and payload stand in the bytes sent: behind the sequence
/// header, and behind the command header.
const MODES: usize = 10;
const FLAGS: usize = 4 + 2;
const PAYLOAD: usize = 4 + 8;
const INITIATE: u8 = 0x40;
const MOST_PART: usize = 1_452;

fn lines(input: &[u8]) -> Vec<String> {
    let mut lines = Vec::new();
    stream::with_state(input, &mut lines).unwrap();
    let text = String::from_utf8(lines).unwrap();
    text.lines().map(String::from).collect()
}

fn octets(hex: &str) -> Vec<u8> {
    let octets = (0..hex.len()).step_by(2).map(|at| &hex[at..at + 2]);
    octets
        .map(|octet| u8::from_str_radix(octet, 16).unwrap())
        .collect()
}

/// The data size that a line has in published mode alone. The two differ in nothing else but the kind.
fn announced(theirs: &str, published: &str) -> u32 {
    let [theirs, published] = [theirs, published].map(|line| line.split(' ').collect::<Vec<_>>());
    let [mut expected, found] = [&theirs, &published].map(|words| octets(words[4]));
    assert_eq!(theirs[..4], published[..4]);
    assert_eq!(theirs[5..], published[5..]);
    assert_eq!(expected.len(), PAYLOAD + MOST_PART);
    assert_eq!(expected[FLAGS], 0);
    expected[FLAGS] = INITIATE;
    let size: [u8; 4] = found[PAYLOAD..PAYLOAD + 4].try_into().unwrap();
    expected.splice(PAYLOAD..PAYLOAD, size);
    assert_eq!(expected, found);
    u32::from_le_bytes(size)
}

#[test]
fn the_modes_differ_where_a_transfer_of_1_453_to_1_456_bytes_begins() {
    let mut sizes = [0; 4];
    for seed in 0..120 {
        let mut input = generate::drawn(Modes::PUBLISHED, seed).unwrap().with_head();
        let published = lines(&input);
        input[MODES] = 0;
        let theirs = lines(&input);
        assert_eq!(theirs.len(), published.len(), "seed {seed}");
        for (theirs, published) in theirs.iter().zip(&published) {
            if theirs != published {
                // A total has four bytes more than what is announced.
                sizes[announced(theirs, published) as usize - 1_449] += 1;
            }
        }
    }
    assert!(sizes.iter().all(|count| *count > 5), "{sizes:?}");
}
