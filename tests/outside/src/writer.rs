//! Records as bytes: document 01, section "The sheet". What is written is not judged.

use crate::tree::*;

/// A sheet in the making, with the place of each of its records.
#[derive(Default)]
pub struct Writer {
    pub bytes: Vec<u8>,
    pub places: Vec<usize>,
}

impl Writer {
    /// A sheet record whose number of routines is set by `finish`.
    pub fn sheet() -> Writer {
        let mut writer = Writer::default();
        writer.record(SHEET, &[1, 0]);
        writer
    }

    pub fn finish(mut self, routines: u32) -> Writer {
        self.bytes[8..12].copy_from_slice(&routines.to_le_bytes());
        self
    }

    pub fn record(&mut self, kind: u16, fields: &[u32]) {
        self.places.push(self.bytes.len());
        let length = 4 + 4 * fields.len() as u16;
        self.bytes.extend(length.to_le_bytes());
        self.bytes.extend(kind.to_le_bytes());
        for field in fields {
            self.bytes.extend(field.to_le_bytes());
        }
    }

    pub fn routine(&mut self, organisation: u32) {
        self.record(ROUTINE, &[organisation]);
    }

    pub fn primitive(&mut self, cost: u32) {
        self.record(PRIMITIVE, &[cost]);
    }

    pub fn sequence(&mut self, n: usize) {
        self.record(SEQUENCE, &[n as u32]);
    }

    pub fn alternative(&mut self, n: usize) {
        self.record(ALTERNATIVE, &[n as u32]);
    }

    pub fn head_loop(&mut self, count: u32, scope: bool) {
        self.record(HEAD_LOOP, &[count, scope.into()]);
    }

    pub fn tail_loop(&mut self, count: u32, scope: bool) {
        self.record(TAIL_LOOP, &[count, scope.into()]);
    }

    pub fn timed_loop(&mut self, time: u32) {
        self.record(TIMED_LOOP, &[time]);
    }

    pub fn call(&mut self, routine: u32) {
        self.record(CALL, &[routine]);
    }

    pub fn marker(&mut self, limit: u32, cost: u32) {
        self.record(MARKER, &[limit, cost]);
    }
}
