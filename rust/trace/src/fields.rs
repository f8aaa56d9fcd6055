//! What stands in a line after its operation: nodes, objects, numbers, times and data.

use crate::notation::NUMBERS;
use crate::words::{Fault, Words};
use std::fmt;
use std::str::FromStr;

/// The word that begins a time, which ends the data.
pub const TIME: &str = "at";

/// What may come where data may.
pub const DATA: &str = "data in hex, 'at' or the end of the line";

/// What is read or written in a node.
pub struct Object {
    pub index: u16,
    pub sub_index: u8,
}

impl fmt::Display for Object {
    fn fmt(&self, f: &mut fmt::Formatter<'_>) -> fmt::Result {
        write!(f, "{:04X}:{:02X}", self.index, self.sub_index)
    }
}

pub fn node(words: &mut Words) -> Result<u8, Fault> {
    words.expect("a node, 0 to 255", decimal)
}

pub fn object(words: &mut Words) -> Result<Object, Fault> {
    let expected = "an object such as 2100:01, index and sub-index in hex";
    words.expect(expected, object_of)
}

/// A number of a sequence header.
pub fn number(words: &mut Words) -> Result<u8, Fault> {
    words.expect("a sequence number, 0 to 63", |word| {
        decimal(word).filter(|&number| number < NUMBERS)
    })
}

pub fn octet(words: &mut Words) -> Result<u8, Fault> {
    let [octet] = words.expect("an octet, two hex digits", octets)?;
    Ok(octet)
}

/// The time that the line gives, if it gives one, and then its end.
pub fn time(words: &mut Words) -> Result<Option<u64>, Fault> {
    let mut time = None;
    if words.take(TIME) {
        let expected = "a time in microseconds below 2^64, such as 15000000, or with its unit: \
            15000000us, 15000ms, 15s";
        time = Some(words.expect(expected, microseconds)?);
    } else if !words.at_end() {
        return Err(words.fault("'at' or the end of the line"));
    }
    match words.word() {
        b"" => Ok(time),
        b"us" | b"ms" | b"s" => Err(words.fault("the unit right behind its number, as in 15s")),
        _ => Err(words.fault("the end of the line")),
    }
}

/// The bytes up to the time or the end, perhaps none. `expected` is told where a word stands among
/// them.
pub fn data(words: &mut Words, expected: &str) -> Result<Vec<u8>, Fault> {
    let mut data = Vec::new();
    while !words.at_end() && !words.is(TIME) {
        let word = words.word();
        match hex::word_bytes(word) {
            Ok(bytes) => data.extend(bytes),
            Err(place) if place < word.len() && word.iter().all(in_words) => {
                return Err(words.fault(expected));
            }
            Err(place) => return Err(bad_digit(words, place)),
        }
        words.advance();
    }
    Ok(data)
}

/// An entry of a concise DCF, `OBJECT=DATA`, as its bytes.
pub fn entry(words: &mut Words) -> Result<Vec<u8>, Fault> {
    let word = words.word();
    let sides = word.iter().position(|&byte| byte == b'=');
    let (left, right) = word.split_at(sides.unwrap_or(word.len()));
    let object = std::str::from_utf8(left).ok().and_then(object_of);
    let (Some(object), [b'=', digits @ ..]) = (object, right) else {
        return Err(words.fault("an entry such as 2100:01=0104, 'at' or the end of the line"));
    };
    let data = hex::word_bytes(digits)
        .map_err(|place| bad_digit(words, word.len() - digits.len() + place))?;
    // A line of text that has 2^33 digits is not expected.
    let size = data.len() as u32;
    words.advance();
    let mut bytes = object.index.to_le_bytes().to_vec();
    bytes.push(object.sub_index);
    bytes.extend(size.to_le_bytes());
    bytes.extend(data);
    Ok(bytes)
}

pub fn decimal<T: FromStr>(word: &str) -> Option<T> {
    // A sign, which parse would take, is none of ours.
    let digits = word.bytes().all(|byte| byte.is_ascii_digit());
    word.parse().ok().filter(|_| digits)
}

/// Exactly so many octets in one word.
pub fn octets<const N: usize>(word: &str) -> Option<[u8; N]> {
    hex::word_bytes(word.as_bytes()).ok()?.try_into().ok()
}

/// What no data but words are written with.
fn in_words(character: &u8) -> bool {
    character.is_ascii_alphabetic() || *character == b'/'
}

fn bad_digit(words: &Words, place: usize) -> Fault {
    words.fault_within(place, "a hex digit, two a byte")
}

fn object_of(word: &str) -> Option<Object> {
    let (index, sub_index) = word.split_once(':')?;
    let [sub_index] = octets(sub_index)?;
    Some(Object {
        index: u16::from_be_bytes(octets(index)?),
        sub_index,
    })
}

fn microseconds(word: &str) -> Option<u64> {
    let end = word.find(|character: char| !character.is_ascii_digit());
    let (digits, unit) = word.split_at(end.unwrap_or(word.len()));
    let unit = match unit {
        "" | "us" => 1,
        "ms" => 1_000,
        "s" => 1_000_000,
        _ => return None,
    };
    decimal::<u64>(digits)?.checked_mul(unit)
}
