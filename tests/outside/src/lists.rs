//! What is lent for margins, at random: document 02, request L1.

use crate::calculator::Calculation;
use crate::margins::{LAST_DEADLINE, LIST_PLACES};
use crate::random::Random;

#[derive(Clone, PartialEq, Eq)]
pub struct Lists {
    pub table: Vec<u64>,
    pub deadlines: Vec<u64>,
    pub margins: Vec<i64>,
}

impl Lists {
    /// Each list has a length of its own, so any of them is short with and without the others.
    pub fn random(calculation: &Calculation, random: &mut Random) -> Lists {
        let table = filled(random);
        let deadlines = deadlines(calculation, random);
        let margins = filled(random).into_iter().map(|number| number as i64).collect();
        Lists { table, deadlines, margins }
    }
}

/// A list as it might be before a call: of any numbers.
pub fn filled(random: &mut Random) -> Vec<u64> {
    (0..places(random)).map(|_| random.next()).collect()
}

/// From 64 to 66, and one time in 16 from 0 to 63.
fn places(random: &mut Random) -> usize {
    if random.below(16) == 0 {
        random.index(LIST_PLACES)
    } else {
        LIST_PLACES + random.index(3)
    }
}

/// Most lists have a good deadline for each routine that was read; behind these stands anything, since it is not judged.
fn deadlines(calculation: &Calculation, random: &mut Random) -> Vec<u64> {
    let judged = calculation.routines.len();
    let deadline = |at: usize, random: &mut Random| match calculation.bounds.get(at) {
        Some(&bound) => good_deadline(bound, random),
        None if at < judged || random.chance(50) => good_deadline(0, random),
        None => bad_deadline(random),
    };
    let mut deadlines: Vec<u64> = (0..places(random)).map(|at| deadline(at, random)).collect();
    let bad = if random.chance(30) { random.between(1, 3) } else { 0 };
    for _ in 0..bad {
        if let Some(deadline) = deadlines.get_mut(random.index(judged.max(1))) {
            *deadline = bad_deadline(random);
        }
    }
    deadlines
}

fn good_deadline(bound: u64, random: &mut Random) -> u64 {
    match random.below(8) {
        0 => 0,
        1 => bound,
        2 => bound.saturating_sub(1),
        3 => (bound + 1).min(LAST_DEADLINE),
        4 => LAST_DEADLINE,
        5 => random.between(0, LAST_DEADLINE),
        _ => random.skewed(LAST_DEADLINE),
    }
}

/// Just over the range, about where the sign of 64 bits changes, the largest, and others.
fn bad_deadline(random: &mut Random) -> u64 {
    const OVER: u64 = LAST_DEADLINE + 1;
    match random.below(7) {
        0 => OVER,
        1 => OVER + random.skewed(LAST_DEADLINE),
        2 => 1 << random.between(41, 63),
        3 => (1 << 63) - 1,
        4 => u64::MAX,
        5 => u64::MAX - random.skewed(LAST_DEADLINE),
        _ => random.next() | OVER,
    }
}
