//! A number that stands for bytes: FNV-1a with 32 bits, beside how many there are.

const BASIS: u32 = 2_166_136_261;
const PRIME: u32 = 16_777_619;

#[derive(Debug, Clone, Copy, PartialEq, Eq)]
pub struct Sum {
    pub length: usize,
    pub fnv: u32,
}

impl Sum {
    pub fn of(bytes: &[u8]) -> Self {
        let add = |fnv: u32, byte: &u8| (fnv ^ u32::from(*byte)).wrapping_mul(PRIME);
        Self {
            length: bytes.len(),
            fnv: bytes.iter().fold(BASIS, add),
        }
    }
}

#[cfg(test)]
mod tests {
    use super::Sum;

    /// From the published test vectors of FNV.
    #[test]
    fn vectors() {
        for (text, fnv) in [
            ("", 0x811C_9DC5),
            ("a", 0xE40C_292C),
            ("foobar", 0xBF9C_F968),
        ] {
            let length = text.len();
            assert_eq!(Sum::of(text.as_bytes()), Sum { length, fnv }, "{text}");
        }
    }
}
