//! Bytes as hex, read and written: what the display and the bench tools share.

use std::fmt::Write;

/// The bytes of a line: two digits a byte, with spaces between bytes where one likes. None where it
/// is anything else.
pub fn bytes(text: &[u8]) -> Option<Vec<u8>> {
    let mut bytes = Vec::with_capacity(text.len() / 2);
    for word in text.split(u8::is_ascii_whitespace) {
        bytes.extend(word_bytes(word).ok()?);
    }
    Some(bytes)
}

/// The bytes of one word, or the place in it where a digit was missing: that of another character,
/// or the end where the last byte has one digit only.
pub fn word_bytes(word: &[u8]) -> Result<Vec<u8>, usize> {
    if let Some(place) = word
        .iter()
        .position(|&character| digit(character).is_none())
    {
        return Err(place);
    }
    let pairs = word.chunks_exact(2);
    if !pairs.remainder().is_empty() {
        return Err(word.len());
    }
    Ok(pairs
        .filter_map(|pair| Some(digit(pair[0])? * 16 + digit(pair[1])?))
        .collect())
}

fn digit(character: u8) -> Option<u8> {
    let value = char::from(character).to_digit(16)?;
    Some(value as u8)
}

/// Two digits a byte, with nothing between.
pub fn text(bytes: &[u8]) -> String {
    bytes.iter().fold(String::new(), |mut text, byte| {
        // A String takes whatever is written to it.
        let _ = write!(text, "{byte:02X}");
        text
    })
}

#[cfg(test)]
mod tests {
    use super::{bytes, text, word_bytes};

    #[test]
    fn read() {
        assert_eq!(bytes(b"00fF Ab"), Some(vec![0x00, 0xFF, 0xAB]));
        assert_eq!(bytes(b"01  02\t03"), Some(vec![1, 2, 3]));
        assert_eq!(bytes(b""), Some(vec![]));
    }

    #[test]
    fn not_hex() {
        for line in ["0", "012", "0 1", "0g", "+1", "0x01", "01,02"] {
            assert_eq!(bytes(line.as_bytes()), None, "{line}");
        }
    }

    #[test]
    fn the_place_of_a_missing_digit() {
        assert_eq!(word_bytes(b"00fF"), Ok(vec![0x00, 0xFF]));
        assert_eq!(word_bytes(b""), Ok(vec![]));
        assert_eq!(word_bytes(b"0O"), Err(1));
        assert_eq!(word_bytes(b"0104 "), Err(4));
        assert_eq!(word_bytes(b"01040"), Err(5));
        assert_eq!(word_bytes(b"x"), Err(0));
    }

    #[test]
    fn written() {
        assert_eq!(text(&[0x00, 0xFF, 0x0A]), "00FF0A");
        assert_eq!(text(&[]), "");
    }
}
