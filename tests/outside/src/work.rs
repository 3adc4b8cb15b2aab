//! How much work a sheet is: document 02, request L2. The constructs are counted on the tree.

use crate::calculator::{Answer, Calculation};
use crate::refusals::*;
use crate::tree::{Construct, CountedLoop, Form};
use crate::wrong::Wrong;

impl Calculation {
    /// "On acceptance, report the constructs valued; a refusal reports 0." The answer and the table are those of `answer`.
    pub fn work(&self, table: &mut [u64]) -> (Answer, u64) {
        let before = self.is(Wrong::CountWithoutTable).then(|| table.to_vec());
        let answer = self.answer(table);
        if let Some(before) = before {
            table.copy_from_slice(&before);
        }
        let constructs = match answer.number {
            0 => self.constructs(),
            _ if self.is(Wrong::CountOfRefused) => self.construct_records,
            NO_ROOM if self.is(Wrong::CountOfNoRoom) => self.construct_records,
            TOO_BIG if self.is(Wrong::CountOfTooBig) => self.construct_records,
            _ => 0,
        };
        (answer, constructs)
    }

    /// What L2 says besides of a count: it "equals the number of construct records and is at most (bytes - 12) / 8". The
    /// records were counted while reading, and not on the tree.
    pub fn could_count(&self, constructs: u64, answer: u64) -> bool {
        match answer {
            0 => constructs == self.construct_records && constructs <= (self.sheet_length as u64).saturating_sub(12) / 8,
            _ => constructs == 0,
        }
    }

    fn constructs(&self) -> u64 {
        let mut of_routines = Vec::new();
        for routine in &self.routines {
            let own = u64::from(self.is(Wrong::RoutinesCounted));
            of_routines.push(own + self.valued(&routine.body, &of_routines));
        }
        if self.is(Wrong::LastRoutineAlone) {
            of_routines.drain(..of_routines.len() - 1);
        }
        u64::from(self.is(Wrong::SheetCounted)) + sum(of_routines)
    }

    /// "Values each construct once": the construct itself, and all that it owns.
    fn valued(&self, construct: &Construct, of_routines: &[u64]) -> u64 {
        let valued = |construct: &Construct| self.valued(construct, of_routines);
        let owned = match &construct.form {
            Form::Alternative { condition, branches } if self.is(Wrong::LargestBranchAlone) => {
                valued(condition) + branches.iter().map(valued).max().unwrap_or(0)
            }
            Form::Counted(counted) => self.valued_in_loop(counted, valued),
            Form::Timed { .. } if self.is(Wrong::TimeoutNotCounted) => 0,
            _ => sum(construct.children().into_iter().map(valued)),
        };
        self.itself(construct, of_routines).saturating_add(owned)
    }

    /// One, whatever it is: "a call counting one and not re-entering its routine".
    fn itself(&self, construct: &Construct, of_routines: &[u64]) -> u64 {
        match &construct.form {
            Form::Call { routine } if self.is(Wrong::CallsEntered) => of_routines[routine - 1].saturating_add(1),
            Form::Call { .. } if self.is(Wrong::CallsNotCounted) => 0,
            Form::Marker { .. } if self.is(Wrong::MarkersNotCounted) => 0,
            Form::Sequence { children } if children.is_empty() && self.is(Wrong::EmptyNotCounted) => 0,
            _ => 1,
        }
    }

    fn valued_in_loop(&self, counted: &CountedLoop, valued: impl Fn(&Construct) -> u64) -> u64 {
        let (body, condition, overrun) = (valued(&counted.body), valued(&counted.condition), valued(&counted.overrun));
        let init = counted.init.as_ref().map(valued);
        let again = match init {
            Some(_) if self.is(Wrong::ConditionTwice) => condition,
            _ if self.is(Wrong::EachIteration) => {
                sum([body, condition]).saturating_mul(u64::from(counted.count).saturating_sub(1))
            }
            _ => 0,
        };
        sum([init.unwrap_or(0), condition, body, overrun, again])
    }
}

/// Only a wrong rule comes to numbers that 64 bits do not hold.
fn sum(counts: impl IntoIterator<Item = u64>) -> u64 {
    counts.into_iter().fold(0, u64::saturating_add)
}
