//! What the tests of all entries use.

use maxt::{Answer, Refusal};

pub const GARBAGE: u64 = 0x5AA5_0FF0_1234_5678;

/// 01's case b in bytes: P7 with organisation cost 5.
pub const CASE_B: [u8; 28] = [
    0x0C, 0, 0x64, 0, 1, 0, 0, 0, 1, 0, 0, 0, // sheet: edition 1, 1 routine
    8, 0, 1, 0, 5, 0, 0, 0, // routine: organisation cost 5
    8, 0, 2, 0, 7, 0, 0, 0, // primitive: cost 7
];

pub fn camera(name: &str) -> Vec<u8> {
    let path = format!("{}/../../sheets/{name}.bin", env!("CARGO_MANIFEST_DIR"));
    std::fs::read(&path).unwrap_or_else(|error| panic!("{path}: {error}"))
}

pub fn refused(refusal: Refusal, place: usize) -> Answer {
    Answer::Refused { refusal, place }
}
