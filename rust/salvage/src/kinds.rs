//! The kinds of DCFs that are drawn, in rounds: one of each kind, and all cuts of one.

use crate::long;
use concise_dcf::draw;
use rng::Rng;

/// Long DCFs are drawn in one round of so many, the first among them: they take most of the bytes.
const LONG_ROUND: usize = 8;

/// A kind by its name, and how one is drawn.
type Kind = (&'static str, fn(&mut Rng) -> Vec<u8>);

const SHORT: [Kind; 14] = [
    ("whole", draw::small),
    ("bytes after", bytes_after),
    ("count 0", |rng| counting(rng, |_| 0)),
    ("count 1", |rng| counting(rng, |_| 1)),
    ("count one fewer", |rng| counting(rng, one_fewer)),
    ("count one more", |rng| counting(rng, |held| held + 1)),
    ("count 256", |rng| counting(rng, |_| 256)),
    ("count 2^32-1", |rng| counting(rng, |_| u32::MAX)),
    ("size near 0 and 2^32", |rng| draw::sized(rng, |_, _| 0)),
    ("size near 2^31", |rng| draw::sized(rng, |_, _| 1 << 31)),
    ("size near what is there", near_what_is_there),
    ("size 0", sizes_0),
    ("mostly zeros", draw::mostly_zeros),
    ("drawn bytes", drawn_bytes),
];

const LONG: [Kind; 6] = [
    ("hundreds of entries", long::hundreds),
    ("long entries", long::long_entries),
    ("up to the limit", long::up_to_the_limit),
    ("one byte too long", long::one_too_long),
    ("last size off at the limit", long::last_size_off),
    ("4,095 to 4,200 bytes", long::around_the_limit),
];

const CUT: &str = "cut at every length";

/// How many kinds there are; the last is that of the cuts.
pub const KINDS: usize = SHORT.len() + LONG.len() + 1;

/// The names of the kinds, by their numbers.
pub fn names() -> impl Iterator<Item = &'static str> {
    let drawn = SHORT.iter().chain(&LONG).map(|(name, _)| *name);
    drawn.chain([CUT])
}

/// A DCF, and the number of its kind.
#[derive(Debug, PartialEq, Eq)]
pub struct Drawn {
    pub kind: usize,
    pub dcf: Vec<u8>,
}

/// Draws round after round.
pub struct Rounds {
    rng: Rng,
    round: usize,
}

impl Rounds {
    /// The generator's lowest bit is not the seed's.
    pub fn new(seed: u64) -> Self {
        Self {
            rng: Rng::new(seed << 1),
            round: 0,
        }
    }

    /// The next whole rounds, until they have at least so many DCFs.
    pub fn draw(&mut self, least: usize) -> Vec<Drawn> {
        let mut drawn = Vec::new();
        while drawn.len() < least {
            self.draw_round(&mut drawn);
        }
        drawn
    }

    fn draw_round(&mut self, drawn: &mut Vec<Drawn>) {
        let long = match self.round % LONG_ROUND {
            0 => &LONG[..],
            _ => &[],
        };
        for (kind, (_, draw)) in SHORT.iter().chain(long).enumerate() {
            let dcf = draw(&mut self.rng);
            drawn.push(Drawn { kind, dcf });
        }
        for cut in draw::every_cut(&draw::small(&mut self.rng)) {
            drawn.push(Drawn {
                kind: KINDS - 1,
                dcf: cut.to_vec(),
            });
        }
        self.round += 1;
    }
}

/// A small DCF, and up to twelve bytes that it does not count.
fn bytes_after(rng: &mut Rng) -> Vec<u8> {
    let mut dcf = draw::small(rng);
    let trailing = 1 + rng.below(12);
    dcf.extend(rng.bytes(trailing));
    dcf
}

fn counting(rng: &mut Rng, counted: fn(u32) -> u32) -> Vec<u8> {
    draw::counting(rng, |_, held| counted(held))
}

/// Of none there is none fewer.
fn one_fewer(held: u32) -> u32 {
    held.saturating_sub(1)
}

fn near_what_is_there(rng: &mut Rng) -> Vec<u8> {
    draw::sized(rng, |rng, there| rng.pick(&there))
}

/// Up to eleven entries without data, the last of which may lose its tail.
fn sizes_0(rng: &mut Rng) -> Vec<u8> {
    let entries = 1 + rng.below(11);
    let mut dcf = draw::counted(rng, &vec![0; entries]);
    dcf.truncate(dcf.len() - rng.pick(&[0, 0, 1, 7]));
    dcf
}

fn drawn_bytes(rng: &mut Rng) -> Vec<u8> {
    let len = rng.below(200);
    rng.bytes(len)
}

#[cfg(test)]
mod tests {
    use super::{names, Rounds, KINDS, LONG_ROUND};

    /// How many DCFs of each kind are drawn.
    fn kinds(least: usize) -> [usize; KINDS] {
        let mut kinds = [0; KINDS];
        for drawn in Rounds::new(3).draw(least) {
            kinds[drawn.kind] += 1;
        }
        kinds
    }

    #[test]
    fn every_kind_is_drawn_in_the_first_round() {
        let drawn = kinds(1);
        assert_eq!(names().count(), KINDS);
        assert_eq!(drawn[..KINDS - 1], [1; KINDS - 1]);
        // Of a DCF there are at least its four bytes, and none.
        assert!(drawn[KINDS - 1] >= 5);
    }

    #[test]
    fn later_rounds_go_on() {
        let mut rounds = Rounds::new(3);
        let apart: Vec<_> = (0..2 * LONG_ROUND).flat_map(|_| rounds.draw(1)).collect();
        let at_once = Rounds::new(3).draw(apart.len());
        assert_eq!(at_once, apart);
        let long = apart.iter().filter(|drawn| drawn.kind == KINDS - 2);
        assert_eq!(long.count(), 2);
    }

    #[test]
    fn seeds_differ() {
        let [two, three] = [2, 3].map(|seed| Rounds::new(seed).draw(1));
        assert_ne!(two, three);
    }
}
