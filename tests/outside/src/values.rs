//! The value of every record: document 01, section "Values".
//!
//! All children of a record are worked out before it, so records are worked out in the order in which they end, and the
//! first value over the limit is the one that TOO BIG names. A scope walks down its body a second time to find its
//! markers; for that walk the values are kept by the place of their record.

use crate::refusals::*;
use crate::tree::*;
use crate::wrong::Wrong;

pub const LIMIT: u128 = (1 << 40) - 1;

/// Lengths of records are multiples of this, and so are the places of all records.
const GRAIN: usize = 4;

struct Values {
    of_routines: Vec<u128>,
    by_place: Vec<u128>,
    wrong: Option<Wrong>,
}

/// The bounds of the routines, and TOO BIG if one of them has none.
pub fn bounds(routines: &[Routine], sheet_length: usize, wrong: Option<Wrong>) -> (Vec<u64>, Option<Refused>) {
    let by_place = vec![0; sheet_length / GRAIN];
    let mut values = Values { of_routines: Vec::new(), by_place, wrong };
    let refused = routines.iter().find_map(|routine| values.routine(routine).err());
    (values.of_routines.into_iter().map(as_bound).collect(), refused)
}

fn as_bound(value: u128) -> u64 {
    u64::try_from(value).expect("a value within the limit")
}

impl Values {
    fn routine(&mut self, routine: &Routine) -> Result<(), Refused> {
        let body = match self.construct(&routine.body) {
            Err(refused) if self.is(Wrong::TooBigAtRoutine) => return refuse(refused.number, routine.place),
            other => other?,
        };
        let value = within_limit(u128::from(routine.organisation) + body, routine.place)?;
        self.of_routines.push(value);
        Ok(())
    }

    fn construct(&mut self, construct: &Construct) -> Result<u128, Refused> {
        for child in construct.children() {
            self.construct(child)?;
        }
        let value = within_limit(self.by_table_1(construct), construct.place)?;
        self.by_place[construct.place / GRAIN] = value;
        Ok(value)
    }

    /// Table 1. Every child is within the limit, so nothing here comes near 128 bits.
    fn by_table_1(&self, construct: &Construct) -> u128 {
        match &construct.form {
            Form::Primitive { cost } | Form::Marker { cost, .. } => u128::from(*cost),
            Form::Sequence { children } => children.iter().map(|child| self.of(child)).sum(),
            Form::Alternative { condition, branches } => self.of(condition) + self.largest_plain(branches),
            Form::Counted(counted) => self.counted(counted),
            Form::Timed { time, timeout } => u128::from(*time) + self.of(timeout),
            Form::Call { routine } => self.of_routines[routine - 1],
        }
    }

    fn of(&self, construct: &Construct) -> u128 {
        self.by_place[construct.place / GRAIN]
    }

    fn largest_plain(&self, branches: &[Construct]) -> u128 {
        let plain = branches.iter().filter(|branch| branch.marked().is_none() || self.is(Wrong::MarkedCountsAsPlain));
        plain.map(|branch| self.of(branch)).max().expect("an alternative that has been read has a plain branch")
    }

    fn counted(&self, counted: &CountedLoop) -> u128 {
        let (condition, body) = (self.of(&counted.condition), self.of(&counted.body));
        let count = u128::from(counted.count);
        if self.is(Wrong::SumOfNoRecord) && body + condition > LIMIT {
            return body + condition;
        }
        let before = match &counted.init {
            Some(init) if self.is(Wrong::ConditionCountTimes) => self.of(init),
            Some(init) => self.of(init) + condition,
            None => 0,
        };
        let overrun = if count == 0 && self.is(Wrong::OverrunSkippedAtZero) { 0 } else { self.of(&counted.overrun) };
        let table_1 = before + count * (body + condition) + overrun;
        if counted.scope {
            self.with_markers(table_1, counted)
        } else {
            table_1
        }
    }

    /// "Its Table 1 value plus, for each marker belonging to it, passes x excess".
    fn with_markers(&self, table_1: u128, scope: &CountedLoop) -> u128 {
        let mut sum = Sum { counts: Vec::new(), total: 0 };
        sum.counts.push(scope.count);
        self.add_markers(&scope.body, &mut sum);
        let total = if self.is(Wrong::ScopeSumWraps) { sum.total & i128::from(u64::MAX) } else { sum.total };
        (table_1 as i128 + total).max(0) as u128
    }

    /// Where a marker of the scope can stand. What lies in a further scope belongs to that one.
    fn add_markers(&self, construct: &Construct, sum: &mut Sum) {
        match &construct.form {
            Form::Sequence { children } => children.iter().for_each(|child| self.add_markers(child, sum)),
            Form::Alternative { branches, .. } => self.add_branches(branches, sum),
            Form::Counted(counted) if !counted.scope => {
                sum.counts.push(counted.count);
                self.add_markers(&counted.body, sum);
                sum.counts.pop();
            }
            _ => {}
        }
    }

    fn add_branches(&self, branches: &[Construct], sum: &mut Sum) {
        let plain = self.largest_plain(branches) as i128;
        for branch in branches {
            if let Some(limit) = branch.marked() {
                let difference = self.of(branch) as i128 - plain;
                let excess = if self.is(Wrong::NegativeExcess) { difference } else { difference.max(0) };
                sum.total += self.passes(limit, &sum.counts) as i128 * excess;
            }
            self.add_markers(branch, sum);
        }
    }

    /// "The lesser of the marker's limit and the product of the counts from the scope loop, included, down to the
    /// marker". The product stops growing at the largest number, which is over every limit; a count of 0 still makes it 0.
    fn passes(&self, limit: u32, counts: &[u32]) -> u128 {
        let (scope, inner) = counts.split_first().expect("the scope's own count");
        let product = |counts: &[u32]| counts.iter().fold(1u128, |product, &count| product.saturating_mul(count.into()));
        let limit = u128::from(limit);
        match self.wrong {
            Some(Wrong::ProductWraps) => {
                limit.min(counts.iter().fold(1u64, |product, &count| product.wrapping_mul(count.into())).into())
            }
            Some(Wrong::ExcessEachIteration) => limit.min((*scope).into()) * product(inner).min(1 << 60),
            Some(Wrong::InnermostCountAlone) => limit.min(counts[counts.len() - 1].into()),
            Some(Wrong::ScopeNotIncluded) => limit.min(product(inner)),
            _ => limit.min(product(counts)),
        }
    }

    fn is(&self, wrong: Wrong) -> bool {
        self.wrong == Some(wrong)
    }
}

/// The counts from a scope's loop down to where the walk is, and passes x excess of the markers so far.
struct Sum {
    counts: Vec<u32>,
    total: i128,
}

fn within_limit(value: u128, place: usize) -> Result<u128, Refused> {
    if value > LIMIT {
        return refuse(TOO_BIG, place);
    }
    Ok(value)
}
