//! The flags of a command in the order of EPSG DS 301, in which a dissector reads them: response 0x80 for 0x10, abort 0x40
//! for 0x20, segmentation times 16 for times 64.

/// Where the flags stand in what is sent: the third octet behind the sequence header.
const PLACE: usize = 4 + 2;

/// Moves the flags of what is sent, where it is long enough to have them.
pub fn publish(sent: &mut [u8]) {
    if let Some(flags) = sent.get_mut(PLACE) {
        *flags = published(*flags);
    }
}

fn published(flags: u8) -> u8 {
    let (response, abort) = ((flags & 0x10) << 3, (flags & 0x20) << 1);
    let (segmentation, reserved) = ((flags & 0xC0) >> 2, flags & 0x0F);
    response | abort | segmentation | reserved
}

#[cfg(test)]
mod tests {
    use super::{publish, published};

    #[test]
    fn each_bit_moves() {
        for (flags, moved) in [
            (0x00, 0x00),
            (0x10, 0x80),
            (0x20, 0x40),
            (0x40, 0x10),
            (0x80, 0x20),
            (0xC0, 0x30),
            (0xFF, 0xFF),
            (0x5A, 0x9A),
        ] {
            assert_eq!(published(flags), moved, "{flags:02X}");
        }
    }

    #[test]
    fn nothing_else_moves() {
        let mut sent = *b"\xC0\xC0\xC0\xC0\xC0\xC0\xC0\xC0\xC0";
        publish(&mut sent);
        assert_eq!(sent, *b"\xC0\xC0\xC0\xC0\xC0\xC0\x30\xC0\xC0");
        publish(&mut sent[..6]);
        assert_eq!(sent, *b"\xC0\xC0\xC0\xC0\xC0\xC0\x30\xC0\xC0");
    }
}
