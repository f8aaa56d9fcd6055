//! The input of salvages: DCFs one after another, each behind its length.

/// The DCFs as an input.
pub fn input<'a>(dcfs: impl IntoIterator<Item = &'a [u8]>) -> Vec<u8> {
    let mut input = Vec::new();
    for dcf in dcfs {
        let length = u16::try_from(dcf.len()).expect("no DCF is drawn with over 65,535 bytes");
        input.extend(length.to_le_bytes());
        input.extend(dcf);
    }
    input
}

/// The DCFs of an input. An error says where it is cut.
pub fn dcfs(input: &[u8]) -> Result<Vec<&[u8]>, String> {
    let mut dcfs = Vec::new();
    let mut rest = input;
    while !rest.is_empty() {
        let next = rest.split_first_chunk().and_then(|(length, behind)| {
            behind.split_at_checked(usize::from(u16::from_le_bytes(*length)))
        });
        let cut = || format!("the input ends inside DCF {}", dcfs.len() + 1);
        let (dcf, behind) = next.ok_or_else(cut)?;
        dcfs.push(dcf);
        rest = behind;
    }
    Ok(dcfs)
}

#[cfg(test)]
mod tests {
    use super::{dcfs, input};

    #[test]
    fn there_and_back() {
        let long = [7; 4_200];
        let drawn = [&[][..], &[1], &long];
        let bytes = input(drawn);
        assert_eq!(bytes[..5], [0, 0, 1, 0, 1]);
        assert_eq!(bytes[5..8], [0x68, 0x10, 7]);
        assert_eq!(dcfs(&bytes).unwrap(), drawn);
        assert!(dcfs(b"").unwrap().is_empty());
    }

    #[test]
    fn an_input_that_is_cut() {
        for cut in [&[0][..], &[1, 0], &[3, 1, 0, 0, 0]] {
            let told = "the input ends inside DCF 1";
            assert_eq!(dcfs(cut), Err(told.into()), "{cut:?}");
        }
        assert!(dcfs(&[0, 0, 1]).unwrap_err().ends_with("DCF 2"));
    }
}
