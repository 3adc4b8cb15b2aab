//! The margin of each routine: document 02, request L1.

use crate::calculator::{Answer, Calculation};
use crate::lists::Lists;
use crate::refusals::*;
use crate::wrong::Wrong;

/// "At least 64 long".
pub const LIST_PLACES: usize = 64;
/// "Deadlines run from 0 to 2^40 - 1".
pub const LAST_DEADLINE: u64 = (1 << 40) - 1;

impl Calculation {
    /// Stores the bounds and the margins if nothing is refused.
    pub fn margins(&self, lent: &mut Lists) -> Answer {
        let refused = self.refusal(lent);
        match refused {
            None => self.store_margins(lent, self.bounds.len()),
            Some(Refused { number: BAD_DEADLINE, place }) if self.is(Wrong::MarginsUpToBadDeadline) => {
                self.store_margins(lent, place - 1)
            }
            Some(Refused { number: BAD_DEADLINE, .. }) if self.is(Wrong::BoundsDespiteBadDeadline) => self.store(&mut lent.table),
            Some(_) => {}
        }
        self.answered(refused, &mut lent.table)
    }

    /// "13 SHORT LIST after NO ROOM", and so before TOO LONG; "14 BAD DEADLINE after TOO BIG", the last of the sheet's own.
    fn refusal(&self, lent: &Lists) -> Option<Refused> {
        let (no_room, short_list) = (self.no_room(&lent.table), self.short_list(lent));
        let (own, bad_deadline) = (self.own_refusal(), self.bad_deadline(&lent.deadlines));
        let too_long = own.filter(|own| own.number == TOO_LONG);
        let in_order = [
            short_list.filter(|_| self.is(Wrong::ShortListBeforeNoRoom)),
            no_room,
            too_long.filter(|_| self.is(Wrong::ShortListAfterTooLong)),
            short_list,
            bad_deadline.filter(|_| self.is(Wrong::DeadlineBeforeSheet)),
            own,
            bad_deadline,
        ];
        in_order.into_iter().flatten().next()
    }

    /// "Either list under 64, place 0".
    fn short_list(&self, lent: &Lists) -> Option<Refused> {
        let deadlines = lent.deadlines.len() < LIST_PLACES && !self.is(Wrong::OnlyMarginsShort);
        let margins = lent.margins.len() < LIST_PLACES && !self.is(Wrong::OnlyDeadlinesShort);
        (deadlines || margins).then_some(Refused { number: SHORT_LIST, place: 0 })
    }

    /// "Place: the number of the first routine out of range".
    fn bad_deadline(&self, deadlines: &[u64]) -> Option<Refused> {
        let judged = if self.is(Wrong::LaterDeadlinesJudged) { deadlines.len() } else { self.routines.len() };
        let last = LAST_DEADLINE + u64::from(self.is(Wrong::DeadlineOf2To40));
        let mut bad = (1..).zip(deadlines).take(judged).filter(|&(_, &deadline)| deadline > last).map(|(number, _)| number);
        let number: usize = if self.is(Wrong::LastBadDeadline) { bad.last() } else { bad.next() }?;
        let place = if self.is(Wrong::BadDeadlineFrom0) { number - 1 } else { number };
        Some(Refused { number: BAD_DEADLINE, place })
    }

    /// Those of the first routines.
    fn store_margins(&self, lent: &mut Lists, routines: usize) {
        let known = lent.deadlines.iter().zip(&self.bounds).take(routines);
        for (place, (&deadline, &bound)) in lent.margins.iter_mut().zip(known) {
            *place = self.margin(deadline, bound);
        }
        if self.is(Wrong::LaterMarginsCleared) {
            lent.margins[routines..].fill(0);
        }
    }

    /// "Deadline minus bound": "negative when late, zero when it just fits".
    fn margin(&self, deadline: u64, bound: u64) -> i64 {
        let difference = i128::from(deadline) - i128::from(self.altered(bound));
        let margin = match difference {
            _ if self.is(Wrong::BoundMinusDeadline) => -difference,
            ..0 if self.is(Wrong::LateIsZero) => 0,
            _ => difference,
        };
        i64::try_from(margin).expect("a margin of a deadline within its range")
    }
}
