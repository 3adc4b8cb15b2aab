//! Counts by document 02's request L2, of sheets whose records are counted by hand from their notation.

mod common;

use common::{camera, refused, CASE_B, GARBAGE};
use maxt::{answer, work, work_numbers, Answer, Refusal, TABLE_PLACES};

/// Three routines: P1; S[C1, C1]; S[C2, S[]]. Their constructs are 1, 3 and 3. Entered by each call, routine 2 would have
/// 5 and routine 3 would have 8.
const CALLS: [u8; 92] = [
    0x0C, 0, 0x64, 0, 1, 0, 0, 0, 3, 0, 0, 0, // sheet: edition 1, 3 routines
    8, 0, 1, 0, 0, 0, 0, 0, // routine 1
    8, 0, 2, 0, 1, 0, 0, 0, // primitive: cost 1
    8, 0, 1, 0, 0, 0, 0, 0, // routine 2
    8, 0, 3, 0, 2, 0, 0, 0, // sequence of 2
    8, 0, 8, 0, 1, 0, 0, 0, // call of 1
    8, 0, 8, 0, 1, 0, 0, 0, // call of 1
    8, 0, 1, 0, 0, 0, 0, 0, // routine 3
    8, 0, 3, 0, 2, 0, 0, 0, // sequence of 2
    8, 0, 8, 0, 2, 0, 0, 0, // call of 2
    8, 0, 3, 0, 0, 0, 0, 0, // empty sequence
];

/// The table's first places hold these and every later one what it held before.
fn holds(table: &[u64], bounds: &[u64]) -> bool {
    table.starts_with(bounds) && table[bounds.len()..].iter().all(|&place| place == GARBAGE)
}

#[test]
fn case_b_is_one_construct() {
    let mut table = [GARBAGE; TABLE_PLACES];
    assert_eq!(work(&CASE_B, &mut table), (Answer::Accepted { bound: 12 }, 1));
    assert!(holds(&table, &[12]));
}

#[test]
fn a_call_counts_one() {
    let mut table = [GARBAGE; TABLE_PLACES];
    assert_eq!(work(&CALLS, &mut table), (Answer::Accepted { bound: 2 }, 7));
    assert!(holds(&table, &[1, 2, 2]));
}

/// calc_weight has 23 constructs, and calc_center 29 or, with its marker, 30.
#[test]
fn the_camera_sheets() {
    for (name, bound, constructs) in [("camera_plain", 551_475_096, 52), ("camera_marked", 46_810_232, 53)] {
        let sheet = camera(name);
        let mut table = [GARBAGE; 66];
        assert_eq!(work(&sheet, &mut table), (Answer::Accepted { bound }, constructs));
        assert!(holds(&table, &[3_744, bound]));
        assert!(constructs <= (sheet.len() as u64 - 12) / 8);
    }
}

#[test]
fn a_refusal_reports_0_and_leaves_the_table() {
    let mut table = [GARBAGE; TABLE_PLACES];
    assert_eq!(work(&CASE_B[..20], &mut table), (refused(Refusal::Cut, 20), 0));
    assert_eq!(work(&[], &mut table), (refused(Refusal::Cut, 0), 0));
    assert_eq!(work(&CALLS[..84], &mut table), (refused(Refusal::Cut, 84), 0));
    assert_eq!(work(&[0; 60_001], &mut table), (refused(Refusal::TooLong, 0), 0));
    let mut extra = CASE_B.to_vec();
    extra.push(0);
    assert_eq!(work(&extra, &mut table), (refused(Refusal::Extra, 28), 0));
    assert!(holds(&table, &[]));
}

/// H(1000000; P0, P4294967295, P0, P0) is over the limit when all of its constructs have been valued.
#[test]
fn too_big_reports_0() {
    let mut sheet = CASE_B[..20].to_vec();
    sheet.extend([12, 0, 5, 0, 0x40, 0x42, 0x0F, 0, 0, 0, 0, 0]);
    for cost in [0, u32::MAX, 0, 0] {
        sheet.extend([8, 0, 2, 0]);
        sheet.extend(cost.to_le_bytes());
    }
    let mut table = [GARBAGE; TABLE_PLACES];
    assert_eq!(work(&sheet, &mut table), (refused(Refusal::TooBig, 20), 0));
    assert!(holds(&table, &[]));
}

#[test]
fn a_short_table_is_no_room_and_reports_0() {
    for places in 0..TABLE_PLACES {
        let mut table = vec![GARBAGE; places];
        assert_eq!(work(&CASE_B, &mut table), (refused(Refusal::NoRoom, 0), 0));
        assert!(holds(&table, &[]));
    }
}

#[test]
fn it_answers_as_answer_does() {
    let marked = camera("camera_marked");
    for length in 0..=marked.len() {
        let (mut table, mut other) = ([GARBAGE; TABLE_PLACES], [GARBAGE; TABLE_PLACES]);
        let (given, constructs) = work(&marked[..length], &mut table);
        assert_eq!(given, answer(&marked[..length], &mut other));
        assert_eq!(table, other);
        assert_eq!(constructs, if length == marked.len() { 53 } else { 0 });
    }
}

#[test]
fn the_numbers_are_those_of_the_archive() {
    let mut table = [GARBAGE; TABLE_PLACES];
    assert_eq!(work_numbers(&CASE_B, &mut table), ([0, 0, 12], 1));
    assert_eq!(work_numbers(&CASE_B[..20], &mut table), ([3, 20, 0], 0));
}
