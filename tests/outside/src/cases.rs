//! Document 01's own figures, cases a to n, with the number of their constructs by document 02's request L2, counted by hand
//! from 01's notation; and what request L1 says of case b. For the calculator alone.

use crate::calculator::{Answer, Calculation};
use crate::lists::Lists;
use crate::refusals::*;
use crate::writer::Writer;

/// The answer and the number of constructs.
fn worked(sheet: &[u8]) -> (Answer, u64) {
    let mut table = [1; 64];
    let calculation = Calculation::of(sheet, None);
    let (answer, constructs) = calculation.work(&mut table);
    assert_eq!(calculation.answer(&mut [1; 64]), answer);
    assert!(calculation.could_count(constructs, answer.number));
    assert_eq!(table[0], if answer.number == 0 { answer.bound } else { 1 });
    assert!(table[1..].iter().all(|&place| place == 1));
    (answer, constructs)
}

fn of_body(organisation: u32, body: impl FnOnce(&mut Writer)) -> (Answer, u64) {
    let mut writer = Writer::sheet();
    writer.routine(organisation);
    body(&mut writer);
    worked(&writer.finish(1).bytes)
}

/// The bound and the number of constructs.
fn accepted(organisation: u32, body: impl FnOnce(&mut Writer)) -> (u64, u64) {
    let (answer, constructs) = of_body(organisation, body);
    assert_eq!((answer.number, answer.place), (0, 0));
    (answer.bound, constructs)
}

fn primitives(writer: &mut Writer, costs: &[u32]) {
    costs.iter().for_each(|&cost| writer.primitive(cost));
}

#[test]
fn cases_a_to_g() {
    assert_eq!(accepted(0, |w| w.sequence(0)), (0, 1));
    assert_eq!(accepted(5, |w| w.primitive(7)), (12, 1));
    let alternative = |w: &mut Writer| {
        w.alternative(2);
        primitives(w, &[2, 9]);
        w.sequence(0);
    };
    assert_eq!(accepted(0, alternative), (11, 4));
    for (count, value) in [(3, 28), (0, 7)] {
        let head_loop = |w: &mut Writer| {
            w.head_loop(count, false);
            primitives(w, &[1, 2, 5, 4]);
        };
        assert_eq!(accepted(0, head_loop), (value, 5));
    }
    let tail_loop = |w: &mut Writer| {
        w.tail_loop(3, false);
        primitives(w, &[5, 2, 4]);
    };
    assert_eq!(accepted(0, tail_loop), (25, 4));
    let timed_loop = |w: &mut Writer| {
        w.timed_loop(100);
        w.primitive(6);
    };
    assert_eq!(accepted(0, timed_loop), (106, 2));
}

#[test]
fn cases_h_to_k() {
    for (limit, cost, value) in [(4, 20, 167), (40, 20, 263), (0, 20, 103), (4, 2, 103)] {
        let scope = |w: &mut Writer| {
            w.head_loop(10, true);
            primitives(w, &[1, 2]);
            w.alternative(2);
            w.primitive(3);
            w.sequence(2);
            w.marker(limit, 1);
            primitives(w, &[cost, 5, 0]);
        };
        assert_eq!(accepted(0, scope), (value, 10));
    }
}

#[test]
fn case_l() {
    let two_markers = |w: &mut Writer| {
        w.head_loop(10, true);
        primitives(w, &[0, 0]);
        w.alternative(3);
        w.primitive(0);
        for cost in [7, 6] {
            w.sequence(2);
            w.marker(10, 0);
            w.primitive(cost);
        }
        w.sequence(0);
        w.sequence(0);
    };
    assert_eq!(accepted(0, two_markers), (130, 13));
}

#[test]
fn cases_m_and_n() {
    let near_limit = |cost| {
        move |w: &mut Writer| {
            w.sequence(2);
            w.tail_loop(256, false);
            primitives(w, &[u32::MAX, 0]);
            w.sequence(0);
            w.primitive(cost);
        }
    };
    assert_eq!(accepted(0, near_limit(255)), (1_099_511_627_775, 6));
    assert_eq!(of_body(0, near_limit(256)), (Answer { number: TOO_BIG, place: 20, bound: 0 }, 0));
}

#[test]
fn refusals_that_01_prints() {
    let refused = |sheet: &[u8], number, place| assert_eq!(worked(sheet), (Answer { number, place, bound: 0 }, 0));
    refused(&case_b()[..20], CUT, 20);
    refused(&[], CUT, 0);
    refused(&[0; 60_001], TOO_LONG, 0);
}

/// P1; S[C1, C1]; S[C2, S[]]: 1, 3 and 3 constructs, whatever the called routines hold.
#[test]
fn a_call_counts_one() {
    let mut writer = Writer::sheet();
    writer.routine(0);
    writer.primitive(1);
    writer.routine(0);
    writer.sequence(2);
    writer.call(1);
    writer.call(1);
    writer.routine(0);
    writer.sequence(2);
    writer.call(2);
    writer.sequence(0);
    let calculation = Calculation::of(&writer.finish(3).bytes, None);
    let mut table = [1; 64];
    assert_eq!(calculation.work(&mut table), (Answer { number: 0, place: 0, bound: 2 }, 7));
    assert_eq!(table[..4], [1, 2, 2, 1]);
    assert_eq!(calculation.work(&mut [1; 63]), (Answer { number: NO_ROOM, place: 0, bound: 0 }, 0));
}

#[test]
fn counts_that_l2_rules_out() {
    let calculation = Calculation::of(&case_b(), None);
    assert!(calculation.could_count(1, 0) && calculation.could_count(0, NO_ROOM));
    assert!(!calculation.could_count(0, 0) && !calculation.could_count(2, 0) && !calculation.could_count(1, NO_ROOM));
}

fn case_b() -> Vec<u8> {
    let mut writer = Writer::sheet();
    writer.routine(5);
    writer.primitive(7);
    writer.finish(1).bytes
}

/// The answer with lists of these lengths, the first two deadlines as given, and table and margins after.
fn with_deadlines(sheet: &[u8], lengths: [usize; 3], first: [u64; 2]) -> (Answer, [u64; 2], [i64; 2]) {
    let [table, deadlines, margins] = lengths;
    let mut lent = Lists { table: vec![1; table], deadlines: vec![0; deadlines], margins: vec![1; margins] };
    lent.deadlines[..2].copy_from_slice(&first);
    let answer = Calculation::of(sheet, None).margins(&mut lent);
    assert!(lent.table[2..].iter().all(|&place| place == 1) && lent.margins[2..].iter().all(|&place| place == 1));
    (answer, [lent.table[0], lent.table[1]], [lent.margins[0], lent.margins[1]])
}

#[test]
fn margins_of_case_b() {
    let accepted = Answer { number: 0, place: 0, bound: 12 };
    for (deadline, margin) in [(0, -12), (11, -1), (12, 0), (13, 1), (1_099_511_627_775, 1_099_511_627_763)] {
        let given = with_deadlines(&case_b(), [64; 3], [deadline, u64::MAX]);
        assert_eq!(given, (accepted, [12, 1], [margin, 1]));
    }
}

#[test]
fn refusals_of_l1_and_their_order() {
    let refused = |sheet: &[u8], lengths, deadline, number, place| {
        let given = with_deadlines(sheet, lengths, [deadline, 0]);
        assert_eq!(given, (Answer { number, place, bound: 0 }, [1, 1], [1, 1]));
    };
    let too_long = [0; 60_001];
    refused(&too_long, [63, 63, 63], u64::MAX, NO_ROOM, 0);
    refused(&too_long, [64, 63, 64], u64::MAX, SHORT_LIST, 0);
    refused(&too_long, [64, 64, 63], u64::MAX, SHORT_LIST, 0);
    refused(&too_long, [64, 64, 64], u64::MAX, TOO_LONG, 0);
    refused(&case_b()[..20], [64, 64, 64], u64::MAX, CUT, 20);
    refused(&case_b(), [64, 64, 64], 1_099_511_627_776, BAD_DEADLINE, 1);
}
