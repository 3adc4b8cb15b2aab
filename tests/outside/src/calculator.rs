//! A calculator for timing sheets, written from document 01 alone: the sheet is read into a tree, then the tree's
//! records are worked out, then the answer is put together as section "What comes back" says. `margins.rs` adds request
//! L1 of document 02, `work.rs` request L2.

use std::ops::Range;

use crate::reading::{read, Reading};
use crate::refusals::*;
use crate::tree::Routine;
use crate::values::{bounds, LIMIT};
use crate::wrong::Wrong;

const LONGEST: usize = 60_000;
const TABLE_PLACES: usize = 64;

/// The three numbers of an answer; number 0 is acceptance.
#[derive(Clone, Copy, Debug, PartialEq, Eq)]
pub struct Answer {
    pub number: u64,
    pub place: usize,
    pub bound: u64,
}

/// All that can be asked of one sheet, whatever table is lent.
pub struct Calculation {
    pub routines: Vec<Routine>,
    /// Of a refused sheet only those worked out before.
    pub bounds: Vec<u64>,
    /// Records of constructs; of a refused sheet only those read before.
    pub construct_records: u64,
    pub sheet_length: usize,
    refused: Option<Refused>,
    wrong: Option<Wrong>,
}

impl Calculation {
    pub fn of(sheet: &[u8], wrong: Option<Wrong>) -> Calculation {
        let mut calculation = Calculation {
            routines: Vec::new(),
            bounds: Vec::new(),
            construct_records: 0,
            sheet_length: sheet.len(),
            refused: None,
            wrong,
        };
        if sheet.len() > LONGEST {
            calculation.refused = Some(Refused { number: TOO_LONG, place: 0 });
            return calculation;
        }
        let Reading { routines, fault, constructs } = read(sheet, wrong);
        // TOO BIG is given only for a sheet with no other fault.
        if fault.is_none() || calculation.is(Wrong::TooBigAtOnce) {
            (calculation.bounds, calculation.refused) = bounds(&routines, sheet.len(), wrong);
        }
        calculation.refused = calculation.refused.or(fault);
        calculation.routines = routines;
        calculation.construct_records = constructs;
        calculation
    }

    /// Stores the bounds in the table if the sheet is accepted.
    pub fn answer(&self, table: &mut [u64]) -> Answer {
        self.answered(self.no_room(table).or(self.own_refusal()), table)
    }

    pub fn no_room(&self, table: &[u64]) -> Option<Refused> {
        let too_long = self.is(Wrong::TooLongFirst) && self.sheet_length > LONGEST;
        (table.len() < TABLE_PLACES && !too_long).then_some(Refused { number: NO_ROOM, place: 0 })
    }

    /// What the sheet is refused for, whatever is lent.
    pub fn own_refusal(&self) -> Option<Refused> {
        if self.is(Wrong::RefusesAll) {
            return Some(Refused { number: CUT, place: 0 });
        }
        self.refused
    }

    /// Stores the bounds in the table if nothing is refused.
    pub fn answered(&self, refused: Option<Refused>, table: &mut [u64]) -> Answer {
        if let Some(Refused { number, place }) = refused {
            if number == TOO_BIG && self.is(Wrong::StoredBeforeAcceptance) {
                self.store(table);
            }
            return Answer { number, place, bound: 0 };
        }
        self.store(table);
        let task = *self.bounds.last().expect("an accepted sheet has a routine");
        Answer { number: 0, place: 0, bound: self.altered(task) }
    }

    pub fn store(&self, table: &mut [u64]) {
        if self.is(Wrong::StoresNothing) {
            return;
        }
        for (place, &bound) in table.iter_mut().zip(&self.bounds) {
            *place = self.altered(bound);
        }
        if self.is(Wrong::LaterPlacesCleared) {
            table[self.bounds.len()..].fill(0);
        }
    }

    pub fn altered(&self, bound: u64) -> u64 {
        match self.wrong {
            Some(Wrong::AlwaysTheLimit) => LIMIT as u64,
            Some(Wrong::FirstForAll) => self.bounds[0],
            _ => bound,
        }
    }

    /// "From its routine record to the last record of its body", or "the empty part at the sheet's end".
    pub fn routine(&self, number: u64) -> Range<usize> {
        let nothing = self.sheet_length..self.sheet_length;
        let refused = match self.refused {
            Some(Refused { number: TOO_BIG, .. }) => !self.is(Wrong::PartOfTooBig),
            other => other.is_some(),
        };
        let index = usize::try_from(number).ok().and_then(|number| number.checked_sub(1));
        match index.and_then(|index| self.routines.get(index)) {
            Some(routine) if !refused && self.is(Wrong::PartOfOneRecord) => routine.place..routine.place + 8,
            Some(routine) if !refused => routine.part(),
            _ => nothing,
        }
    }

    /// The bounds of an accepted sheet.
    pub fn outcome(&self) -> Result<&[u64], Refused> {
        self.refused.map_or(Ok(self.bounds.as_slice()), Err)
    }

    pub fn is(&self, wrong: Wrong) -> bool {
        self.wrong == Some(wrong)
    }
}
