//! The bound of a timing sheet, the margins of its routines and its count of constructs, worked out by the proved archive
//! `libboundary.a`.
//!
//! Document 01 says what a sheet is, what its bound is and when it is refused; document 02's request L1 says what a
//! margin is, L2 what is counted. This crate adds no rule of its own: it hands slices to the archive and gives its answers
//! a type.

use core::ops::Range;

/// Places that a lent table needs at least; with fewer the answer is [`Refusal::NoRoom`].
pub const TABLE_PLACES: usize = 64;

/// Places that a lent list of deadlines or margins needs at least; with fewer the answer is [`Refusal::ShortList`].
pub const LIST_PLACES: usize = 64;

/// The largest deadline; a routine with a larger one is [`Refusal::BadDeadline`].
pub const LAST_DEADLINE: u64 = (1 << 40) - 1;

/// The refusals of documents 01 and 02, with their numbers. [`margins`] alone gives the last two.
#[derive(Clone, Copy, Debug, PartialEq, Eq, Hash)]
#[repr(u8)]
pub enum Refusal {
    NoRoom = 1,
    TooLong = 2,
    Cut = 3,
    BadKind = 4,
    BadLength = 5,
    BadField = 6,
    BadCall = 7,
    TooDeep = 8,
    StrayMarker = 9,
    NoPlainBranch = 10,
    Extra = 11,
    TooBig = 12,
    ShortList = 13,
    /// Its place is no offset: it is the number of the first routine whose deadline is out of range, from 1.
    BadDeadline = 14,
}

impl Refusal {
    /// In the order of their numbers.
    pub const ALL: [Refusal; 14] = [
        Refusal::NoRoom,
        Refusal::TooLong,
        Refusal::Cut,
        Refusal::BadKind,
        Refusal::BadLength,
        Refusal::BadField,
        Refusal::BadCall,
        Refusal::TooDeep,
        Refusal::StrayMarker,
        Refusal::NoPlainBranch,
        Refusal::Extra,
        Refusal::TooBig,
        Refusal::ShortList,
        Refusal::BadDeadline,
    ];

    /// The number that the documents give it, 1 to 14.
    pub fn number(self) -> u8 {
        self as u8
    }

    /// The name as the documents write it.
    pub fn name(self) -> &'static str {
        match self {
            Refusal::NoRoom => "NO ROOM",
            Refusal::TooLong => "TOO LONG",
            Refusal::Cut => "CUT",
            Refusal::BadKind => "BAD KIND",
            Refusal::BadLength => "BAD LENGTH",
            Refusal::BadField => "BAD FIELD",
            Refusal::BadCall => "BAD CALL",
            Refusal::TooDeep => "TOO DEEP",
            Refusal::StrayMarker => "STRAY MARKER",
            Refusal::NoPlainBranch => "NO PLAIN BRANCH",
            Refusal::Extra => "EXTRA",
            Refusal::TooBig => "TOO BIG",
            Refusal::ShortList => "SHORT LIST",
            Refusal::BadDeadline => "BAD DEADLINE",
        }
    }

    fn of_number(number: u64) -> Option<Refusal> {
        Refusal::ALL.into_iter().find(|refusal| u64::from(refusal.number()) == number)
    }
}

impl core::fmt::Display for Refusal {
    fn fmt(&self, formatter: &mut core::fmt::Formatter<'_>) -> core::fmt::Result {
        formatter.write_str(self.name())
    }
}

/// What comes back for a sheet.
#[derive(Clone, Copy, Debug, PartialEq, Eq)]
pub enum Answer {
    /// The bound of the last routine, the task.
    Accepted { bound: u64 },
    /// The place is an offset in the sheet; of [`Refusal::BadDeadline`] it is the number of a routine, from 1.
    Refused { refusal: Refusal, place: usize },
}

/// The entries as `include/maxt.h` has them. All calls of this crate are safe for one reason: each pointer comes from a
/// slice with the length that is passed with it, or from an array as long as what the entry stores; all are aligned and
/// live until the call returns, those that are written through come from mutable borrows, and the archive keeps none.
mod archive {
    extern "C" {
        pub fn maxt_answer(sheet: *const u8, sheet_length: usize, table: *mut u64, table_length: usize, answer: *mut [u64; 3]);
        pub fn maxt_routine(sheet: *const u8, sheet_length: usize, number: u64, part: *mut [u64; 2]);
        pub fn maxt_margins(
            sheet: *const u8,
            sheet_length: usize,
            table: *mut u64,
            table_length: usize,
            deadlines: *const u64,
            deadlines_length: usize,
            margins: *mut i64,
            margins_length: usize,
            answer: *mut [u64; 3],
        );
        pub fn maxt_work(
            sheet: *const u8,
            sheet_length: usize,
            table: *mut u64,
            table_length: usize,
            answer: *mut [u64; 3],
        ) -> u64;
    }
}

impl Answer {
    /// The archive's number, place and bound with a type.
    ///
    /// # Panics
    ///
    /// If the documents do not have the number; the archive's contract rules that out.
    pub fn of_numbers([number, place, bound]: [u64; 3]) -> Answer {
        if number == 0 {
            return Answer::Accepted { bound };
        }
        match Refusal::of_number(number) {
            Some(refusal) => Answer::Refused { refusal, place: offset(place) },
            None => panic!("the archive answered with number {number}, which is no refusal of the documents"),
        }
    }
}

/// Judges the sheet and works out its bounds.
///
/// On acceptance the table's first places, one per routine in order, hold the bounds and every later place is as it
/// was. On a refusal the whole table is as it was. A table of fewer than [`TABLE_PLACES`] places is refused.
pub fn answer(sheet: &[u8], table: &mut [u64]) -> Answer {
    Answer::of_numbers(numbers(sheet, table))
}

/// [`answer`] as the archive gives it: number (0 is acceptance), place and bound.
pub fn numbers(sheet: &[u8], table: &mut [u64]) -> [u64; 3] {
    let mut answer = [0; 3];
    // SAFETY: as `archive` says; the table and the array of three are written.
    unsafe {
        archive::maxt_answer(sheet.as_ptr(), sheet.len(), table.as_mut_ptr(), table.len(), &mut answer);
    }
    answer
}

/// [`answer`], and by how many cycles each routine keeps its deadline.
///
/// On acceptance the first places of `margins`, one per routine in order, hold deadline minus bound: negative when the
/// routine is late, 0 when it just fits; every later place is as it was. A refusal leaves table and margins as they were;
/// there are two more of them:
///
/// - [`Refusal::ShortList`], after [`Refusal::NoRoom`] and before all others: one of the two lists has fewer than
///   [`LIST_PLACES`] places.
/// - [`Refusal::BadDeadline`], after all others: a routine's deadline is over [`LAST_DEADLINE`]. Deadlines behind the last
///   routine's are not judged.
pub fn margins(sheet: &[u8], table: &mut [u64], deadlines: &[u64], margins: &mut [i64]) -> Answer {
    Answer::of_numbers(margin_numbers(sheet, table, deadlines, margins))
}

/// [`margins`] as the archive gives its answer: number (0 is acceptance), place and bound.
pub fn margin_numbers(sheet: &[u8], table: &mut [u64], deadlines: &[u64], margins: &mut [i64]) -> [u64; 3] {
    let mut answer = [0; 3];
    // SAFETY: as `archive` says; the table, the margins and the array of three are written.
    unsafe {
        archive::maxt_margins(
            sheet.as_ptr(),
            sheet.len(),
            table.as_mut_ptr(),
            table.len(),
            deadlines.as_ptr(),
            deadlines.len(),
            margins.as_mut_ptr(),
            margins.len(),
            &mut answer,
        );
    }
    answer
}

/// [`answer`], and how much work the sheet was: how many constructs were valued.
///
/// On acceptance it is the number of construct records, which are those of kinds 2 to 9; at most `(sheet.len() - 12) / 8`.
/// A call counts one, whatever its routine holds. The sheet's record and the routines' records do not count. Of a refusal
/// it is 0.
pub fn work(sheet: &[u8], table: &mut [u64]) -> (Answer, u64) {
    let (numbers, constructs) = work_numbers(sheet, table);
    (Answer::of_numbers(numbers), constructs)
}

/// [`work`] with the answer as the archive gives it: number (0 is acceptance), place and bound.
pub fn work_numbers(sheet: &[u8], table: &mut [u64]) -> ([u64; 3], u64) {
    let mut answer = [0; 3];
    // SAFETY: as `archive` says; the table and the array of three are written.
    let constructs = unsafe { archive::maxt_work(sheet.as_ptr(), sheet.len(), table.as_mut_ptr(), table.len(), &mut answer) };
    (answer, constructs)
}

/// Where the records of a routine lie in an accepted sheet: from its routine record to the end of its body.
///
/// Routines are numbered from 1. For any other number, and for a sheet that is refused, it is the empty range at the
/// sheet's end.
pub fn routine(sheet: &[u8], number: u64) -> Range<usize> {
    let mut part = [0u64; 2];
    // SAFETY: as `archive` says; the array of two is written.
    unsafe {
        archive::maxt_routine(sheet.as_ptr(), sheet.len(), number, &mut part);
    }
    let [start, end] = part;
    offset(start)..offset(end)
}

/// The records at [`routine`]'s range; nothing is copied.
pub fn routine_records(sheet: &[u8], number: u64) -> &[u8] {
    &sheet[routine(sheet, number)]
}

/// The archive is for 64-bit machines, where every offset of a slice is a `usize`.
fn offset(place: u64) -> usize {
    usize::try_from(place).expect("the archive gave a place that no slice has")
}
