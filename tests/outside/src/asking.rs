//! One question, put to the archive and to the calculator.

use std::ops::Range;

use crate::calculator::{Answer, Calculation};
use crate::lists::{filled, Lists};
use crate::random::Random;
use crate::sheets::{sheet, Sheet, LONGEST};
use crate::wrong::Wrong;

const MOST_ROUTINES: u32 = 64;
/// Places before and behind a lent list that nobody may touch, and what they hold.
const GUARDS: usize = 2;
const GUARD: u32 = 0x0DD0_CAFE;
/// Sheets longer than this take long, and are asked for routine parts, margins and counts less often.
const LONG: usize = 4_000;

/// A sheet, the table as it is lent, the routines that are asked for, and what is lent for margins and for the count of
/// constructs if these are asked for.
pub struct Question {
    pub sheet: Sheet,
    /// By no wrong rule.
    pub calculation: Calculation,
    pub table: Vec<u64>,
    pub routines: Vec<u64>,
    pub lists: Option<Lists>,
    pub work_table: Option<Vec<u64>>,
}

#[derive(PartialEq, Eq)]
pub struct Reply {
    /// The answer's number, place and bound.
    pub answer: [u64; 3],
    pub table: Vec<u64>,
    pub parts: Vec<Range<usize>>,
    pub margins: Option<MarginsReply>,
    pub work: Option<WorkReply>,
}

#[derive(PartialEq, Eq)]
pub struct MarginsReply {
    pub answer: [u64; 3],
    pub lists: Lists,
}

#[derive(PartialEq, Eq)]
pub struct WorkReply {
    pub constructs: u64,
    pub answer: [u64; 3],
    pub table: Vec<u64>,
}

impl Question {
    pub fn of_seed(seed: u64) -> Question {
        let sheet = sheet(seed);
        let calculation = Calculation::of(&sheet.bytes, None);
        let mut random = Random::new(!seed);
        let table = filled(&mut random);
        let length = sheet.bytes.len();
        let parts_asked = random.below(if length > LONG { 40 } else { 4 }) == 0;
        let routines = if parts_asked { routine_numbers(&sheet.bytes, &mut random) } else { Vec::new() };
        // What is TOO LONG takes no time, and has to meet a short list often enough.
        let one_in = if (LONG + 1..=LONGEST).contains(&length) { 10 } else { 2 };
        let margins_asked = random.below(one_in) == 0;
        let lists = margins_asked.then(|| Lists::random(&calculation, &mut random));
        let work_asked = random.below(one_in) == 0;
        let work_table = work_asked.then(|| filled(&mut random));
        Question { sheet, calculation, table, routines, lists, work_table }
    }

    pub fn put_to_archive(&self) -> Reply {
        let sheet = &self.sheet.bytes;
        let mut table = Guarded::around(&self.table);
        let answer = maxt::numbers(sheet, table.lent());
        let parts = self.routines.iter().map(|&number| maxt::routine(sheet, number)).collect();
        let margins = self.lists.as_ref().map(|lists| margins_of_archive(sheet, lists));
        let work = self.work_table.as_ref().map(|table| work_of_archive(sheet, table));
        Reply { answer, table: table.back(), parts, margins, work }
    }

    pub fn put_to(&self, calculation: &Calculation) -> Reply {
        let mut table = self.table.clone();
        let answer = numbers(calculation.answer(&mut table));
        let parts = self.routines.iter().map(|&number| calculation.routine(number)).collect();
        let margins = self.lists.clone().map(|mut lists| {
            let answer = numbers(calculation.margins(&mut lists));
            MarginsReply { answer, lists }
        });
        let work = self.work_table.clone().map(|mut table| {
            let (answer, constructs) = calculation.work(&mut table);
            WorkReply { constructs, answer: numbers(answer), table }
        });
        Reply { answer, table, parts, margins, work }
    }

    /// Whether a count is one that request L2 rules out, by the records that were read and by the bytes.
    pub fn is_miscounted(&self, reply: &Reply) -> bool {
        reply.work.as_ref().is_some_and(|work| !self.calculation.could_count(work.constructs, work.answer[0]))
    }

    pub fn calculated(&self, wrong: Wrong) -> Calculation {
        Calculation::of(&self.sheet.bytes, Some(wrong))
    }
}

fn numbers(answer: Answer) -> [u64; 3] {
    [answer.number, answer.place as u64, answer.bound]
}

/// The deadlines come back too: nobody may write to them.
fn margins_of_archive(sheet: &[u8], lists: &Lists) -> MarginsReply {
    let (mut table, mut deadlines) = (Guarded::around(&lists.table), Guarded::around(&lists.deadlines));
    let mut margins = Guarded::around(&lists.margins);
    let answer = maxt::margin_numbers(sheet, table.lent(), deadlines.lent(), margins.lent());
    MarginsReply { answer, lists: Lists { table: table.back(), deadlines: deadlines.back(), margins: margins.back() } }
}

fn work_of_archive(sheet: &[u8], table: &[u64]) -> WorkReply {
    let mut table = Guarded::around(table);
    let (answer, constructs) = maxt::work_numbers(sheet, table.lent());
    WorkReply { constructs, answer, table: table.back() }
}

/// A list between places that nobody may touch.
struct Guarded<T>(Vec<T>);

impl<T: Copy + PartialEq + From<u32>> Guarded<T> {
    fn around(list: &[T]) -> Guarded<T> {
        let guards = [T::from(GUARD); GUARDS];
        Guarded([&guards, list, &guards].concat())
    }

    fn lent(&mut self) -> &mut [T] {
        let end = self.0.len() - GUARDS;
        &mut self.0[GUARDS..end]
    }

    fn back(mut self) -> Vec<T> {
        let behind = self.0.split_off(self.0.len() - GUARDS);
        let list = self.0.split_off(GUARDS);
        let untouched = self.0.iter().chain(&behind).all(|&place| place == T::from(GUARD));
        assert!(untouched, "the archive wrote outside of a list");
        list
    }
}

/// From 0 to one more than the sheet says it has, and some that no sheet has.
fn routine_numbers(sheet: &[u8], random: &mut Random) -> Vec<u64> {
    let field = sheet.get(8..12).map_or(0, |field| u32::from_le_bytes([field[0], field[1], field[2], field[3]]));
    let last = u64::from(field.min(MOST_ROUTINES)) + 1;
    let beyond = [(1 << 32) + 1, 1 << random.below(64), u64::MAX];
    (0..=last).chain(beyond).collect()
}
