//! The refusals that a trace can meet, by document 01's numbers ("Numbers that refuse").

#[derive(Debug, Clone, Copy, PartialEq, Eq)]
#[repr(u8)]
pub enum Refusal {
    Busy = 4,
    DcfTooShort = 5,
    TableFull = 6,
    NoRoom = 7,
    DeadlineRange = 8,
    BadRecord = 10,
    ShortRecord = 11,
}

impl Refusal {
    pub fn number(self) -> u8 {
        self as u8
    }
}
