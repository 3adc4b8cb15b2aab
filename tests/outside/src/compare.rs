//! Runs the questions and says where the two differ.

use std::fmt::Debug;
use std::thread;

use crate::asking::{MarginsReply, Question, Reply, WorkReply};
use crate::counts::Counts;
use crate::lists::Lists;
use crate::refusals::NAMES;
use crate::wrong::Wrong;

/// Sheets of a comparison, and of one with a wrong rule.
pub const MANY: u64 = 1_000_000;
pub const FEW: u64 = 12_000;

const SHOWN: usize = 10;
const DUMPED: usize = 200;

/// One thread's share.
#[derive(Default)]
struct Found {
    counts: Counts,
    differing: Vec<u64>,
}

/// True if nothing differs and enough has been compared.
pub fn all(first: u64, sheets: u64) -> bool {
    let found = in_threads(first, sheets, |seed, found: &mut Found| {
        let question = Question::of_seed(seed);
        let (archive, calculated) = (question.put_to_archive(), question.put_to(&question.calculation));
        found.counts.add(&question, &calculated);
        if archive != calculated || question.is_miscounted(&archive) {
            found.differing.push(seed);
        }
    });
    let mut counts = Counts::default();
    let mut differing = Vec::new();
    for share in found {
        counts.merge(share.counts);
        differing.extend(share.differing);
    }
    counts.print();
    differing.sort_unstable();
    differing.iter().take(SHOWN).for_each(|&seed| show(seed));
    let missing = counts.missing();
    missing.iter().for_each(|words| println!("TOO FEW: {words}"));
    println!("{} agree, {} differ", counts.sheets - differing.len() as u64, differing.len());
    differing.is_empty() && missing.is_empty()
}

/// True if each of the rules is seen to be wrong. Each sheet is put to the archive once, for all rules.
pub fn wrong_rules(numbers: &[usize], first: u64, sheets: u64) -> bool {
    let found = in_threads(first, sheets, |seed, differing: &mut Vec<u64>| {
        let question = Question::of_seed(seed);
        let archive = question.put_to_archive();
        differing.resize(numbers.len(), 0);
        for (count, &number) in differing.iter_mut().zip(numbers) {
            let calculation = question.calculated(Wrong::ALL[number - 1]);
            *count += u64::from(question.put_to(&calculation) != archive);
        }
    });
    let mut all_seen = true;
    for (index, &number) in numbers.iter().enumerate() {
        let differ: u64 = found.iter().filter_map(|differing| differing.get(index)).sum();
        let words = Wrong::ALL[number - 1].words();
        println!("wrong rule {number}: {} agree, {differ} differ ({words})", sheets - differ);
        all_seen &= differ > 0;
    }
    if !all_seen {
        println!("NOT SEEN: a wrong rule without differences");
    }
    all_seen
}

/// Each thread takes every so manieth seed, so that large sheets are spread evenly.
fn in_threads<T: Default + Send>(first: u64, sheets: u64, each: impl Fn(u64, &mut T) + Sync) -> Vec<T> {
    let threads = thread::available_parallelism().map_or(1, |threads| threads.get() as u64);
    let share = |thread: u64| {
        let mut found = T::default();
        for seed in (first + thread..first + sheets).step_by(threads as usize) {
            each(seed, &mut found);
        }
        found
    };
    thread::scope(|scope| {
        let started: Vec<_> = (0..threads).map(|thread| scope.spawn(move || share(thread))).collect();
        started.into_iter().map(|thread| thread.join().expect("a thread of the comparison")).collect()
    })
}

fn show(seed: u64) {
    let question = Question::of_seed(seed);
    let bytes = &question.sheet.bytes;
    println!("seed {seed}: {} bytes, {}, a table of {} places", bytes.len(), question.sheet.shape.words(), question.table.len());
    for row in bytes[..bytes.len().min(DUMPED)].chunks(20) {
        let row: Vec<String> = row.iter().map(|byte| format!("{byte:02X}")).collect();
        println!("    {}", row.join(" "));
    }
    if let Some(Lists { table, deadlines, margins }) = &question.lists {
        println!("    for margins: a table of {} places, {} margins, deadlines {deadlines:?}", table.len(), margins.len());
    }
    if let Some(table) = &question.work_table {
        println!("    for the count: a table of {} places", table.len());
    }
    say("archive", &question, &question.put_to_archive());
    say("calculator", &question, &question.put_to(&question.calculation));
}

fn say(who: &str, question: &Question, reply: &Reply) {
    println!("    {who}: {}; the table: {}", named(reply.answer), changes(&question.table, &reply.table));
    let parts = question.routines.iter().zip(&reply.parts);
    let parts: Vec<String> = parts.map(|(number, part)| format!("{number}: {part:?}")).collect();
    if !parts.is_empty() {
        println!("        parts {}", parts.join(", "));
    }
    if let (Some(lent), Some(MarginsReply { answer, lists })) = (&question.lists, &reply.margins) {
        println!("        with deadlines: {}; the table: {}", named(*answer), changes(&lent.table, &lists.table));
        println!("        the deadlines: {}", changes(&lent.deadlines, &lists.deadlines));
        println!("        the margins: {}", changes(&lent.margins, &lists.margins));
    }
    if let (Some(lent), Some(WorkReply { constructs, answer, table })) = (&question.work_table, &reply.work) {
        println!("        with the count, {constructs}: {}; the table: {}", named(*answer), changes(lent, table));
    }
}

fn named([number, place, bound]: [u64; 3]) -> String {
    let name = NAMES.get(number as usize).unwrap_or(&"unknown");
    format!("{number} {name} at {place}, bound {bound}")
}

fn changes<T: PartialEq + Debug>(before: &[T], after: &[T]) -> String {
    let changed: Vec<usize> = (0..after.len()).filter(|&at| after[at] != before[at]).collect();
    let now: Vec<&T> = changed.iter().map(|&at| &after[at]).collect();
    format!("places {changed:?} become {now:?}")
}
