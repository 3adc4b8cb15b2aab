//! Margins by document 02's request L1, of sheets whose bounds document 01 prints.

mod common;

use common::{camera, refused, CASE_B, GARBAGE};
use maxt::{Answer, Refusal, LAST_DEADLINE, LIST_PLACES, TABLE_PLACES};

const OLD_MARGIN: i64 = -0x5AA5_0FF0_1234_5678;
/// Document 01: calc_weight, and the tasks with and without markers.
const CALC_WEIGHT: u64 = 3_744;
const MARKED: u64 = 46_810_232;
const PLAIN: u64 = 551_475_096;

/// What is lent to one call.
struct Lent {
    table: Vec<u64>,
    deadlines: Vec<u64>,
    margins: Vec<i64>,
}

impl Lent {
    /// As long as they have to be, with these deadlines first and 0 behind them.
    fn with(deadlines: &[u64]) -> Lent {
        let mut lent = Lent::of_lengths(TABLE_PLACES, LIST_PLACES, LIST_PLACES);
        lent.deadlines[..deadlines.len()].copy_from_slice(deadlines);
        lent
    }

    fn of_lengths(table: usize, deadlines: usize, margins: usize) -> Lent {
        Lent { table: vec![GARBAGE; table], deadlines: vec![0; deadlines], margins: vec![OLD_MARGIN; margins] }
    }

    fn answer(&mut self, sheet: &[u8]) -> Answer {
        maxt::margins(sheet, &mut self.table, &self.deadlines, &mut self.margins)
    }

    /// The first places hold these and every later one what it held before.
    fn holds(&self, bounds: &[u64], margins: &[i64]) -> bool {
        starts_with(&self.table, bounds, GARBAGE) && starts_with(&self.margins, margins, OLD_MARGIN)
    }

    fn is_refused(&mut self, sheet: &[u8], refusal: Refusal, place: usize) {
        assert_eq!(self.answer(sheet), refused(refusal, place));
        assert!(self.holds(&[], &[]));
    }
}

fn starts_with<T: PartialEq>(places: &[T], first: &[T], before: T) -> bool {
    places.starts_with(first) && places[first.len()..].iter().all(|place| *place == before)
}

#[test]
fn late_and_just_fits() {
    let mut lent = Lent::with(&[3_700, MARKED]);
    assert_eq!(lent.answer(&camera("camera_marked")), Answer::Accepted { bound: MARKED });
    assert!(lent.holds(&[CALC_WEIGHT, MARKED], &[-44, 0]));
}

#[test]
fn early_and_later_places_untouched() {
    let mut lent = Lent::of_lengths(66, 67, 68);
    lent.deadlines[..2].copy_from_slice(&[4_000, 551_475_097]);
    assert_eq!(lent.answer(&camera("camera_plain")), Answer::Accepted { bound: PLAIN });
    assert!(lent.holds(&[CALC_WEIGHT, PLAIN], &[256, 1]));
}

#[test]
fn a_deadline_of_0_is_late_by_the_bound() {
    let mut lent = Lent::with(&[]);
    assert_eq!(lent.answer(&CASE_B), Answer::Accepted { bound: 12 });
    assert!(lent.holds(&[12], &[-12]));
}

#[test]
fn the_last_deadline_is_taken_and_the_next_refused() {
    let sheet = camera("camera_marked");
    let mut lent = Lent::with(&[LAST_DEADLINE, 1_099_511_627_775]);
    assert_eq!(lent.answer(&sheet), Answer::Accepted { bound: MARKED });
    assert!(lent.holds(&[CALC_WEIGHT, MARKED], &[1_099_511_624_031, 1_099_464_817_543]));
    Lent::with(&[CALC_WEIGHT, 1_099_511_627_776]).is_refused(&sheet, Refusal::BadDeadline, 2);
    Lent::with(&[1_099_511_627_776, u64::MAX]).is_refused(&sheet, Refusal::BadDeadline, 1);
}

#[test]
fn deadlines_behind_the_last_routine_are_not_judged() {
    let mut lent = Lent::with(&[3_700, MARKED, 1_099_511_627_776, u64::MAX]);
    assert_eq!(lent.answer(&camera("camera_marked")), Answer::Accepted { bound: MARKED });
    assert!(lent.holds(&[CALC_WEIGHT, MARKED], &[-44, 0]));
}

#[test]
fn either_list_may_be_short() {
    for places in 0..LIST_PLACES {
        Lent::of_lengths(TABLE_PLACES, places, LIST_PLACES).is_refused(&CASE_B, Refusal::ShortList, 0);
        Lent::of_lengths(TABLE_PLACES, LIST_PLACES, places).is_refused(&CASE_B, Refusal::ShortList, 0);
        Lent::of_lengths(TABLE_PLACES, places, places).is_refused(&CASE_B, Refusal::ShortList, 0);
    }
}

#[test]
fn no_room_then_short_list_then_too_long() {
    let too_long = [0; 60_001];
    Lent::of_lengths(63, 63, 63).is_refused(&too_long, Refusal::NoRoom, 0);
    Lent::of_lengths(64, 63, 64).is_refused(&too_long, Refusal::ShortList, 0);
    Lent::of_lengths(64, 64, 63).is_refused(&too_long, Refusal::ShortList, 0);
    Lent::of_lengths(64, 64, 64).is_refused(&too_long, Refusal::TooLong, 0);
}

#[test]
fn a_refusal_of_the_sheet_comes_before_a_bad_deadline() {
    let mut lent = Lent::with(&[u64::MAX; LIST_PLACES]);
    lent.is_refused(&CASE_B[..20], Refusal::Cut, 20);
    lent.is_refused(&[], Refusal::Cut, 0);
    lent.is_refused(&[0; 60_001], Refusal::TooLong, 0);
    lent.is_refused(&CASE_B, Refusal::BadDeadline, 1);
}
