//! Answers and routine parts of sheets whose figures document 01 prints.

mod common;

use common::{camera, refused, CASE_B, GARBAGE};
use maxt::{answer, routine, routine_records, Answer, Refusal, TABLE_PLACES};

#[test]
fn case_b_is_12() {
    let mut table = [GARBAGE; TABLE_PLACES];
    assert_eq!(answer(&CASE_B, &mut table), Answer::Accepted { bound: 12 });
    assert_eq!(table[0], 12);
    assert!(table[1..].iter().all(|&place| place == GARBAGE));
}

#[test]
fn camera_without_markers() {
    let mut table = [GARBAGE; 66];
    assert_eq!(answer(&camera("camera_plain"), &mut table), Answer::Accepted { bound: 551_475_096 });
    assert_eq!(table[..2], [3_744, 551_475_096]);
    assert!(table[2..].iter().all(|&place| place == GARBAGE));
}

#[test]
fn camera_with_scope_and_marker() {
    let mut table = [GARBAGE; TABLE_PLACES];
    assert_eq!(answer(&camera("camera_marked"), &mut table), Answer::Accepted { bound: 46_810_232 });
    assert_eq!(table[..2], [3_744, 46_810_232]);
}

#[test]
fn a_refusal_has_its_place_and_leaves_the_table() {
    let mut table = [GARBAGE; TABLE_PLACES];
    assert_eq!(answer(&CASE_B[..20], &mut table), refused(Refusal::Cut, 20));
    assert_eq!(answer(&[], &mut table), refused(Refusal::Cut, 0));
    let mut bad_kind = CASE_B;
    bad_kind[22] = 1;
    assert_eq!(answer(&bad_kind, &mut table), refused(Refusal::BadKind, 20));
    assert_eq!(answer(&[0; 60_001], &mut table), refused(Refusal::TooLong, 0));
    assert!(table.iter().all(|&place| place == GARBAGE));
}

#[test]
fn a_short_table_is_no_room() {
    for places in 0..TABLE_PLACES {
        let mut table = vec![GARBAGE; places];
        assert_eq!(answer(&CASE_B, &mut table), refused(Refusal::NoRoom, 0));
        assert_eq!(answer(&[0; 60_001], &mut table), refused(Refusal::NoRoom, 0));
        assert!(table.iter().all(|&place| place == GARBAGE));
    }
}

#[test]
fn a_routine_is_its_records() {
    assert_eq!(routine(&CASE_B, 1), 12..28);
    assert_eq!(routine_records(&CASE_B, 1), &CASE_B[12..]);
    for outside in [0, 2, 65, u64::MAX] {
        assert_eq!(routine(&CASE_B, outside), 28..28);
    }
    assert_eq!(routine(&CASE_B[..20], 1), 20..20);
}

#[test]
fn the_routines_of_a_sheet_lie_one_after_the_other() {
    let sheet = camera("camera_marked");
    let (first, task) = (routine(&sheet, 1), routine(&sheet, 2));
    assert_eq!((first.start, first.end, task.end), (12, task.start, sheet.len()));
    assert_eq!(routine(&sheet, 3), sheet.len()..sheet.len());
}

#[test]
fn refusals_are_numbered_from_1_to_14() {
    let numbers: Vec<u8> = Refusal::ALL.iter().map(|refusal| refusal.number()).collect();
    assert_eq!(numbers, (1..=14).collect::<Vec<u8>>());
    assert_eq!(Refusal::NoPlainBranch.name(), "NO PLAIN BRANCH");
    assert_eq!(Refusal::StrayMarker.to_string(), "STRAY MARKER");
    assert_eq!(Refusal::ShortList.name(), "SHORT LIST");
    assert_eq!(Refusal::BadDeadline.name(), "BAD DEADLINE");
}

#[test]
#[should_panic(expected = "number 15")]
fn a_number_that_the_documents_do_not_have_is_a_panic() {
    Answer::of_numbers([15, 0, 0]);
}
