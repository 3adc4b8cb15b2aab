//! The refusals of document 01, section "What comes back", and of document 02's request L1, with their numbers.

pub const NO_ROOM: u64 = 1;
pub const TOO_LONG: u64 = 2;
pub const CUT: u64 = 3;
pub const BAD_KIND: u64 = 4;
pub const BAD_LENGTH: u64 = 5;
pub const BAD_FIELD: u64 = 6;
pub const BAD_CALL: u64 = 7;
pub const TOO_DEEP: u64 = 8;
pub const STRAY_MARKER: u64 = 9;
pub const NO_PLAIN_BRANCH: u64 = 10;
pub const EXTRA: u64 = 11;
pub const TOO_BIG: u64 = 12;
pub const SHORT_LIST: u64 = 13;
pub const BAD_DEADLINE: u64 = 14;

/// By number; number 0 is acceptance.
pub const NAMES: [&str; 15] = [
    "accepted",
    "NO ROOM",
    "TOO LONG",
    "CUT",
    "BAD KIND",
    "BAD LENGTH",
    "BAD FIELD",
    "BAD CALL",
    "TOO DEEP",
    "STRAY MARKER",
    "NO PLAIN BRANCH",
    "EXTRA",
    "TOO BIG",
    "SHORT LIST",
    "BAD DEADLINE",
];

#[derive(Clone, Copy, Debug, PartialEq, Eq)]
pub struct Refused {
    pub number: u64,
    /// An offset in the sheet; of BAD DEADLINE the number of a routine.
    pub place: usize,
}

pub fn refuse<T>(number: u64, place: usize) -> Result<T, Refused> {
    Err(Refused { number, place })
}
