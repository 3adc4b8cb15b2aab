//! A sheet that has been read: document 01, section "The sheet".

use std::ops::Range;

/// The numbers of the kinds.
pub const SHEET: u16 = 100;
pub const ROUTINE: u16 = 1;
pub const PRIMITIVE: u16 = 2;
pub const SEQUENCE: u16 = 3;
pub const ALTERNATIVE: u16 = 4;
pub const HEAD_LOOP: u16 = 5;
pub const TAIL_LOOP: u16 = 6;
pub const TIMED_LOOP: u16 = 7;
pub const CALL: u16 = 8;
pub const MARKER: u16 = 9;

pub struct Routine {
    pub place: usize,
    pub organisation: u32,
    pub body: Construct,
}

impl Routine {
    /// From its routine record to the last record of its body.
    pub fn part(&self) -> Range<usize> {
        self.place..self.body.end
    }
}

/// A construct's record starts at `place`; the last record that it owns ends at `end`.
pub struct Construct {
    pub place: usize,
    pub end: usize,
    pub form: Form,
}

pub enum Form {
    Primitive { cost: u32 },
    Sequence { children: Vec<Construct> },
    Alternative { condition: Box<Construct>, branches: Vec<Construct> },
    Counted(Box<CountedLoop>),
    Timed { time: u32, timeout: Box<Construct> },
    Call { routine: usize },
    Marker { limit: u32, cost: u32 },
}

/// A head loop, or a tail loop, which has no init.
pub struct CountedLoop {
    pub count: u32,
    pub scope: bool,
    pub init: Option<Construct>,
    pub condition: Construct,
    pub body: Construct,
    pub overrun: Construct,
}

impl CountedLoop {
    fn children(&self) -> Vec<&Construct> {
        match &self.init {
            Some(init) => vec![init, &self.condition, &self.body, &self.overrun],
            None => vec![&self.body, &self.condition, &self.overrun],
        }
    }
}

impl Construct {
    /// The limit of the marker of a branch; a branch without one is plain.
    pub fn marked(&self) -> Option<u32> {
        let Form::Sequence { children } = &self.form else { return None };
        match children.first()?.form {
            Form::Marker { limit, .. } => Some(limit),
            _ => None,
        }
    }

    /// In the order in which they stand in the sheet, and so end.
    pub fn children(&self) -> Vec<&Construct> {
        match &self.form {
            Form::Primitive { .. } | Form::Call { .. } | Form::Marker { .. } => Vec::new(),
            Form::Sequence { children } => children.iter().collect(),
            Form::Alternative { condition, branches } => std::iter::once(&**condition).chain(branches).collect(),
            Form::Counted(counted) => counted.children(),
            Form::Timed { timeout, .. } => vec![timeout],
        }
    }
}
