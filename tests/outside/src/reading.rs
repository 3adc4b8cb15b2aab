//! From bytes to a tree, or to the first bad record: document 01, sections "The sheet" and "What comes back".
//!
//! What stands around a record is kept as a path of steps from the routine down to it. A marker is judged by walking
//! that path outwards.

use crate::refusals::*;
use crate::tree::*;
use crate::wrong::Wrong;

const DEEPEST: usize = 24;
const LARGEST_COUNT: u32 = 1_000_000;

/// What a construct is to its parent.
#[derive(Clone, Copy, PartialEq)]
enum Step {
    RoutineBody,
    Child {
        first: bool,
    },
    /// The last hope is a last branch after marked ones only.
    Branch {
        last_hope: bool,
    },
    LoopBody {
        scope: bool,
    },
    /// A condition, an init, an overrun or a timeout statement.
    Aside,
}

struct Record {
    place: usize,
    kind: u16,
    fields: [u32; 2],
}

struct Reader<'a> {
    sheet: &'a [u8],
    at: usize,
    routine: usize,
    path: Vec<Step>,
    constructs: u64,
    wrong: Option<Wrong>,
}

/// The routines before the first fault; all of them if there is none.
pub struct Reading {
    pub routines: Vec<Routine>,
    pub fault: Option<Refused>,
    /// Records of constructs before the first fault.
    pub constructs: u64,
}

/// Everything but NO ROOM, TOO LONG and TOO BIG is judged here.
pub fn read(sheet: &[u8], wrong: Option<Wrong>) -> Reading {
    let mut reader = Reader { sheet, at: 0, routine: 0, path: Vec::new(), constructs: 0, wrong };
    let mut routines = Vec::new();
    let fault = reader.sheet(&mut routines).err();
    Reading { routines, fault, constructs: reader.constructs }
}

impl Reader<'_> {
    fn sheet(&mut self, read: &mut Vec<Routine>) -> Result<(), Refused> {
        let record = self.record(|kind| kind == SHEET)?;
        let [edition, routines] = record.fields;
        if edition != 1 || !(1..=64).contains(&routines) {
            return refuse(BAD_FIELD, record.place);
        }
        for number in 1..=routines as usize {
            self.routine = number;
            read.push(self.routine()?);
        }
        if self.at < self.sheet.len() {
            return refuse(EXTRA, self.at);
        }
        Ok(())
    }

    /// "Within a record: fewer than four bytes is CUT; then 4; 5; the rest missing is CUT".
    fn record(&mut self, owed: fn(u16) -> bool) -> Result<Record, Refused> {
        let place = self.at;
        let rest = &self.sheet[place..];
        let cut_place = if self.is(Wrong::CutAtEnd) { self.sheet.len() } else { place };
        if rest.len() < 4 {
            return refuse(CUT, cut_place);
        }
        let kind = u16::from_le_bytes([rest[2], rest[3]]);
        let length = length_of(kind);
        let bad_length = length.is_some_and(|length| u16::from_le_bytes([rest[0], rest[1]]) != length);
        let missing = rest.len() < usize::from(length.unwrap_or(4));
        let faults = [
            (BAD_LENGTH, bad_length && self.is(Wrong::LengthBeforeKind)),
            (BAD_KIND, length.is_none() || !owed(kind) || self.is(Wrong::MarkerIsBadKind) && self.marker_not_first(kind)),
            (CUT, missing && self.is(Wrong::CutBeforeLength)),
            (BAD_LENGTH, bad_length),
            (CUT, missing),
        ];
        if let Some(number) = first_given(&faults) {
            return refuse(number, if number == CUT { cut_place } else { place });
        }
        let fields = rest[4..usize::from(length.unwrap_or(4))].chunks_exact(4);
        let mut fields = fields.map(|field| u32::from_le_bytes([field[0], field[1], field[2], field[3]]));
        self.at += 4 + 4 * fields.len();
        Ok(Record { place, kind, fields: [fields.next().unwrap_or(0), fields.next().unwrap_or(0)] })
    }

    fn marker_not_first(&self, kind: u16) -> bool {
        kind == MARKER && self.path.last() != Some(&Step::Child { first: true })
    }

    fn routine(&mut self) -> Result<Routine, Refused> {
        let record = self.record(|kind| kind == ROUTINE)?;
        let body = self.child(Step::RoutineBody)?;
        Ok(Routine { place: record.place, organisation: record.fields[0], body })
    }

    fn child(&mut self, step: Step) -> Result<Construct, Refused> {
        self.path.push(step);
        let construct = self.construct();
        self.path.pop();
        construct
    }

    fn construct(&mut self) -> Result<Construct, Refused> {
        let record = self.record(|kind| (PRIMITIVE..=MARKER).contains(&kind))?;
        if let Some(number) = self.fault(&record) {
            return refuse(number, record.place);
        }
        self.constructs += 1;
        let form = self.form(&record)?;
        Ok(Construct { place: record.place, end: self.at, form })
    }

    /// "Then 6 to 10 in order".
    fn fault(&self, record: &Record) -> Option<u64> {
        let marker = record.kind == MARKER;
        let deepest = DEEPEST + usize::from(self.is(Wrong::OneDeeper));
        let bad_call = record.kind == CALL && !self.callable(record.fields[0]);
        let stray = marker && self.stray();
        let too_deep = self.path.len() > deepest;
        first_given(&[
            (TOO_DEEP, too_deep && self.is(Wrong::DeepBeforeField)),
            (STRAY_MARKER, stray && self.is(Wrong::StrayBeforeField)),
            (BAD_FIELD, !in_range(record) || bad_call && self.is(Wrong::CallIsField)),
            (BAD_CALL, bad_call),
            (TOO_DEEP, too_deep),
            (STRAY_MARKER, stray),
            (NO_PLAIN_BRANCH, marker && self.no_plain_branch() && !self.is(Wrong::NoPlainAtEnd)),
        ])
    }

    /// "A call names a routine from 1 up to the one before its own".
    fn callable(&self, number: u32) -> bool {
        (1..self.routine).contains(&(number as usize))
    }

    /// The marker's path ends with its sequence and that sequence's branch; from there outwards only sequences, branches
    /// and bodies of loops without scope may come before the scope, and no branch outside of such a loop.
    fn stray(&self) -> bool {
        let [outer @ .., Step::Branch { .. }, Step::Child { first: true }] = self.path.as_slice() else {
            return true;
        };
        let mut inside_loop = false;
        for (around, step) in outer.iter().enumerate().rev() {
            match step {
                Step::Child { .. } => {}
                Step::Branch { .. } if inside_loop && !self.is(Wrong::LoopInAlternative) => return true,
                Step::Branch { .. } => {}
                Step::LoopBody { scope: false } => inside_loop = true,
                Step::LoopBody { scope: true } => {
                    let in_alternative = outer[..around].iter().any(|step| matches!(step, Step::Branch { .. }));
                    return self.is(Wrong::ScopeInAlternative) && inside_loop && in_alternative;
                }
                Step::Aside if self.is(Wrong::MarkersAside) => {}
                Step::RoutineBody | Step::Aside => return true,
            }
        }
        true
    }

    fn no_plain_branch(&self) -> bool {
        self.path.iter().rev().nth(1) == Some(&Step::Branch { last_hope: true })
    }

    fn form(&mut self, record: &Record) -> Result<Form, Refused> {
        let [first, second] = record.fields;
        Ok(match record.kind {
            PRIMITIVE => Form::Primitive { cost: first },
            SEQUENCE => Form::Sequence { children: self.children(first)? },
            ALTERNATIVE => self.alternative(first)?,
            HEAD_LOOP => self.head_loop(first, second == 1)?,
            TAIL_LOOP => self.tail_loop(first, second == 1)?,
            TIMED_LOOP => Form::Timed { time: first, timeout: Box::new(self.child(Step::Aside)?) },
            CALL => Form::Call { routine: first as usize },
            _ => Form::Marker { limit: first, cost: second },
        })
    }

    fn children(&mut self, n: u32) -> Result<Vec<Construct>, Refused> {
        (0..n).map(|number| self.child(Step::Child { first: number == 0 })).collect()
    }

    fn alternative(&mut self, n: u32) -> Result<Form, Refused> {
        let condition = Box::new(self.child(Step::Aside)?);
        let mut branches: Vec<Construct> = Vec::new();
        for number in 1..=n {
            let last_hope = number == n && branches.iter().all(|branch| branch.marked().is_some());
            branches.push(self.child(Step::Branch { last_hope })?);
        }
        if self.is(Wrong::NoPlainAtEnd) && branches.iter().all(|branch| branch.marked().is_some()) {
            return refuse(NO_PLAIN_BRANCH, branches.last().map_or(0, |branch| branch.place + 8));
        }
        Ok(Form::Alternative { condition, branches })
    }

    fn head_loop(&mut self, count: u32, scope: bool) -> Result<Form, Refused> {
        let init = Some(self.child(Step::Aside)?);
        let condition = self.child(Step::Aside)?;
        let body = self.child(Step::LoopBody { scope })?;
        let overrun = self.child(Step::Aside)?;
        Ok(Form::Counted(Box::new(CountedLoop { count, scope, init, condition, body, overrun })))
    }

    fn tail_loop(&mut self, count: u32, scope: bool) -> Result<Form, Refused> {
        let body = self.child(Step::LoopBody { scope })?;
        let condition = self.child(Step::Aside)?;
        let overrun = self.child(Step::Aside)?;
        Ok(Form::Counted(Box::new(CountedLoop { count, scope, init: None, condition, body, overrun })))
    }

    fn is(&self, wrong: Wrong) -> bool {
        self.wrong == Some(wrong)
    }
}

fn first_given(faults: &[(u64, bool)]) -> Option<u64> {
    faults.iter().find(|&&(_, given)| given).map(|&(number, _)| number)
}

/// None for an unknown kind.
fn length_of(kind: u16) -> Option<u16> {
    match kind {
        SHEET | HEAD_LOOP | TAIL_LOOP | MARKER => Some(12),
        ROUTINE | PRIMITIVE | SEQUENCE | ALTERNATIVE | TIMED_LOOP | CALL => Some(8),
        _ => None,
    }
}

/// "Ranges"; the numbers of calls have a refusal of their own.
fn in_range(record: &Record) -> bool {
    let [first, second] = record.fields;
    match record.kind {
        SEQUENCE => first <= 1_000,
        ALTERNATIVE => (2..=256).contains(&first),
        HEAD_LOOP => first <= LARGEST_COUNT && second <= 1,
        TAIL_LOOP => (1..=LARGEST_COUNT).contains(&first) && second <= 1,
        MARKER => first <= LARGEST_COUNT,
        _ => true,
    }
}
