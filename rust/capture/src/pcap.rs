//! The file format that capture programs share: a file header, then each frame behind its time and
//! length. Numbers are low byte first, as the first of them tells a reader.

const MAGIC: u32 = 0xA1B2_C3D4;
const VERSION: [u16; 2] = [2, 4];
/// Frames are never longer, so none is cut.
const LONGEST: u32 = 65_535;
const ETHERNET: u32 = 1;

/// A capture with no frame yet.
pub fn start() -> Vec<u8> {
    let mut file = MAGIC.to_le_bytes().to_vec();
    file.extend(VERSION.iter().flat_map(|part| part.to_le_bytes()));
    // Times are in no zone, and nothing is said about how exact they are.
    for number in [0, 0, LONGEST, ETHERNET] {
        file.extend(number.to_le_bytes());
    }
    file
}

/// Adds a frame. Its time in seconds is the record's number, by which its line can be found again.
pub fn put(file: &mut Vec<u8>, record: u32, frame: &[u8]) {
    // A frame is short: see `LONGEST`.
    let len = frame.len() as u32;
    let microseconds = 0;
    for number in [record, microseconds, len, len] {
        file.extend(number.to_le_bytes());
    }
    file.extend(frame);
}
