//! Where the output of salvages parts from what must come out: the first DCF whose answer is another, and in
//! what.

use crate::repair::Answer;

/// How many bytes too many are looked for between two answers, and shown behind one.
const MOST_EXTRA: usize = 64;

#[derive(Debug)]
pub struct Difference {
    /// Which DCF of the batch it is.
    pub place: usize,
    told: String,
    expected: String,
    found: String,
}

impl Difference {
    /// The answer at this place, with the output from where it begins.
    fn new(answers: &[Answer], place: usize, output: &[u8]) -> Self {
        let expected = answers[place].printed();
        let found = output.len().min(expected.len() + MOST_EXTRA);
        Self {
            place,
            told: told(&answers[place], answers.get(place + 1), output),
            expected: shown(&expected),
            found: shown(&output[..found]),
        }
    }

    pub fn text(&self, dcf: &[u8]) -> String {
        let (number, told) = (self.place + 1, &self.told);
        let mut text = format!("DIFFERENCE in DCF {number} of its batch: {told}\n");
        for (name, shown) in [
            ("DCF", &hex::text(dcf)),
            ("expected", &self.expected),
            ("found", &self.found),
        ] {
            text.push_str(&format!("  {name:<9} {shown}\n"));
        }
        text
    }
}

/// The line of an answer, and the bytes behind it in hex.
fn shown(answer: &[u8]) -> String {
    let mut parts = answer.splitn(2, |byte| *byte == b'\n');
    let [line, bytes] = [(); 2].map(|()| parts.next().unwrap_or_default());
    format!("'{}' {}", line.escape_ascii(), hex::text(bytes))
}

/// The first answer that differs. There is an answer at least.
pub fn difference(answers: &[Answer], output: &[u8]) -> Option<Difference> {
    let mut before = output;
    let mut rest = output;
    for (place, answer) in answers.iter().enumerate() {
        let printed = answer.printed();
        let Some(behind) = rest.strip_prefix(&printed[..]) else {
            let late = (1..=MOST_EXTRA).any(|extra| begins(rest, extra, &printed));
            return Some(match place.checked_sub(1) {
                // What stands ahead of a right answer is too much for the one before.
                Some(one_before) if late => Difference::new(answers, one_before, before),
                _ => Difference::new(answers, place, rest),
            });
        };
        before = rest;
        rest = behind;
    }
    (!rest.is_empty()).then(|| Difference::new(answers, answers.len() - 1, before))
}

fn begins(output: &[u8], place: usize, printed: &[u8]) -> bool {
    output
        .get(place..)
        .is_some_and(|there| there.starts_with(printed))
}

/// What is wrong with an answer, by where the next one begins, or the output ends where there is none.
fn told(answer: &Answer, next: Option<&Answer>, output: &[u8]) -> String {
    let line = answer.line();
    let Some(found) = output.strip_prefix(line.as_bytes()) else {
        return "another line".into();
    };
    let expected = answer.bytes();
    let both = expected.iter().zip(found);
    let same = both
        .take_while(|(expected, found)| expected == found)
        .count();
    if same == expected.len() {
        return "bytes too many".into();
    }
    let next = next.map(Answer::printed);
    let ends = |end: &usize| match &next {
        Some(next) => begins(found, *end, next),
        None => found.len() == *end,
    };
    let whole = expected.len();
    match ((0..=whole).rev().find(ends), found.get(same)) {
        (Some(end), _) if end < whole => {
            format!("{} of its {whole} bytes are missing", whole - end)
        }
        (_, Some(byte)) => format!("byte {same} is {byte:02X}, not {:02X}", expected[same]),
        (_, None) => format!("the output ends after {same} of its {whole} bytes"),
    }
}

#[cfg(test)]
mod tests {
    use super::difference;
    use crate::repair::{repair, Answer};

    /// Document 01's P7, P7 without its last byte, one that is too short, and P7 again.
    const P7: [u8; 20] = [
        2, 0, 0, 0, 0x00, 0x21, 1, 2, 0, 0, 0, 0x01, 0x04, 0x01, 0x21, 0, 0, 0, 0, 0,
    ];
    const BATCH: [&[u8]; 4] = [&P7, P7.split_at(19).0, P7.split_at(3).0, &P7];
    const P7_HEX: &str = "0200000000210102000000010401210000000000";

    fn answers() -> Vec<Answer> {
        BATCH.iter().map(|dcf| repair(dcf)).collect()
    }

    /// What must be printed, an answer each.
    fn printed() -> Vec<Vec<u8>> {
        answers().iter().map(Answer::printed).collect()
    }

    /// Where the output of these answers differs, and what is told.
    fn found(output: &[Vec<u8>]) -> (usize, String) {
        let found = difference(&answers(), &output.concat()).unwrap();
        (found.place, found.text(BATCH[found.place]))
    }

    /// The answer at this place is edited, and this must be told of it.
    fn edited(place: usize, edit: impl Fn(&mut Vec<u8>), told: &str) {
        let mut output = printed();
        edit(&mut output[place]);
        let (found, text) = found(&output);
        let hex = hex::text(BATCH[place]);
        let start = format!("DIFFERENCE in DCF {} of its batch: {told}\n", place + 1);
        assert_eq!(found, place, "{text}");
        assert!(
            text.starts_with(&format!("{start}  DCF       {hex}\n  expected  '")),
            "{text}"
        );
    }

    #[test]
    fn the_same() {
        assert!(difference(&answers(), &printed().concat()).is_none());
    }

    #[test]
    fn a_wrong_figure() {
        for place in 0..4 {
            for figure in 0..printed()[place].iter().take_while(|b| **b != b'\n').count() {
                edited(place, |answer| answer[figure] = b'9', "another line");
            }
        }
    }

    #[test]
    fn a_wrong_byte() {
        for place in [0, 1, 3] {
            let answer = &answers()[place];
            let (begin, bytes) = (answer.line().len(), answer.bytes());
            for (at, byte) in bytes.iter().enumerate() {
                let told = format!("byte {at} is {:02X}, not {byte:02X}", byte ^ 0x55);
                edited(place, |answer| answer[begin + at] ^= 0x55, &told);
            }
        }
    }

    #[test]
    fn missing_bytes() {
        let missing =
            |count: usize| move |answer: &mut Vec<u8>| answer.truncate(answer.len() - count);
        edited(0, missing(1), "1 of its 20 bytes are missing");
        edited(1, missing(3), "3 of its 13 bytes are missing");
        edited(3, missing(1), "1 of its 20 bytes are missing");
        edited(3, missing(20), "20 of its 20 bytes are missing");
        edited(
            0,
            |answer| answer.splice(12..13, []).for_each(drop),
            "1 of its 20 bytes are missing",
        );
        edited(2, missing(1), "another line");
    }

    #[test]
    fn bytes_too_many() {
        for place in 0..4 {
            for extra in [1, 2, 64] {
                let told = "bytes too many";
                edited(place, |answer| answer.extend(vec![b'\n'; extra]), told);
            }
        }
        edited(3, |answer| answer.extend([0; 1_000]), "bytes too many");
    }

    #[test]
    fn an_output_that_ends() {
        let output = printed();
        assert!(found(&output[..3]).1.contains(": another line\n"));
        assert!(found(&[]).1.ends_with("\n  found     '' \n"));
        let cut = [output[0][..output[0].len() - 2].to_vec()];
        let (place, text) = found(&cut);
        assert_eq!(place, 0);
        assert!(text.contains(": the output ends after 18 of its 20 bytes\n"));
    }

    #[test]
    fn the_whole_text() {
        let mut output = printed();
        output[0][8] = 3;
        output.truncate(1);
        let bytes = &P7_HEX[2..];
        let expected = format!(
            "DIFFERENCE in DCF 1 of its batch: byte 0 is 03, not 02
  DCF       {P7_HEX}
  expected  '2 2 0 -' 02{bytes}
  found     '2 2 0 -' 03{bytes}
"
        );
        assert_eq!(found(&output).1, expected);
    }
}
