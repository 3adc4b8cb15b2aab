//! What a comparison has been over.

use std::collections::HashSet;

use crate::asking::{MarginsReply, Question, Reply, WorkReply};
use crate::calculator::Calculation;
use crate::refusals::{NAMES, TOO_BIG};
use crate::sheets::Shape;
use crate::tree::{Construct, Form};

/// A comparison over fewer would say too little.
pub const LEAST_SHEETS: u64 = 200_000;
pub const LEAST_OF_EACH: u64 = 1_000;

const SIZES: [(usize, &str); 7] = [
    (100, "under 100 bytes"),
    (1_000, "under 1,000"),
    (10_000, "under 10,000"),
    (30_000, "under 30,000"),
    (60_000, "under 60,000"),
    (60_001, "60,000"),
    (usize::MAX, "over 60,000"),
];

/// Those of document 01 alone.
const NAMES_OF_01: &[&str] = NAMES.split_at(TOO_BIG as usize + 1).0;

#[derive(Default)]
pub struct Counts {
    pub sheets: u64,
    answers: Answers,
    with_deadlines: Answers,
    margins: Margins,
    with_count: Answers,
    work: Work,
    shapes: Vec<(u64, u64)>,
    sizes: [(u64, u64); SIZES.len()],
    damaged: u64,
    parts: u64,
    filled_parts: u64,
    largest: Largest,
}

/// How often each answer came, by its number, and with which places.
#[derive(Default)]
struct Answers {
    counts: [u64; NAMES.len()],
    places: [HashSet<u64>; NAMES.len()],
}

/// Over the sheets accepted with deadlines.
#[derive(Default)]
struct Margins {
    late: u64,
    just_fit: u64,
    early: u64,
}

/// Over the sheets accepted with a count.
#[derive(Default)]
struct Work {
    constructs: u64,
    most: u64,
}

/// Over the accepted sheets.
#[derive(Default)]
struct Largest {
    routines: usize,
    depth: usize,
    children: usize,
    branches: usize,
    marked: usize,
    markers: usize,
}

impl Counts {
    pub fn add(&mut self, question: &Question, calculated: &Reply) {
        let length = question.sheet.bytes.len();
        let accepted = calculated.answer[0] == 0;
        self.sheets += 1;
        self.answers.add(calculated.answer);
        self.damaged += u64::from(question.sheet.damaged);
        self.shapes.resize(Shape::ALL.len(), (0, 0));
        let size = SIZES.iter().position(|&(end, _)| length < end).unwrap_or(0);
        for (all, taken) in [&mut self.shapes[question.sheet.shape as usize], &mut self.sizes[size]] {
            *all += 1;
            *taken += u64::from(accepted);
        }
        for part in &calculated.parts {
            self.parts += 1;
            self.filled_parts += u64::from(!part.is_empty());
        }
        if let Some(reply) = &calculated.margins {
            self.with_deadlines.add(reply.answer);
            self.margins.add(reply, question.calculation.routines.len());
        }
        if let Some(WorkReply { constructs, answer, .. }) = &calculated.work {
            self.with_count.add(*answer);
            self.work.merge(&Work { constructs: *constructs, most: *constructs });
        }
        if accepted {
            self.largest.add(&question.calculation);
        }
    }

    pub fn merge(&mut self, other: Counts) {
        self.sheets += other.sheets;
        self.damaged += other.damaged;
        self.parts += other.parts;
        self.filled_parts += other.filled_parts;
        self.answers.merge(other.answers);
        self.with_deadlines.merge(other.with_deadlines);
        self.margins.merge(&other.margins);
        self.with_count.merge(other.with_count);
        self.work.merge(&other.work);
        self.shapes.resize(Shape::ALL.len(), (0, 0));
        let pairs = self.shapes.iter_mut().zip(other.shapes).chain(self.sizes.iter_mut().zip(other.sizes));
        for (mine, others) in pairs {
            *mine = (mine.0 + others.0, mine.1 + others.1);
        }
        self.largest.merge(&other.largest);
    }

    pub fn print(&self) {
        println!("{:>8}  sheets, {} of them damaged", self.sheets, self.damaged);
        println!("by answer:");
        self.answers.print(NAMES_OF_01);
        println!("by answer with deadlines:");
        self.with_deadlines.print(&NAMES);
        self.margins.print();
        println!("by answer with the count of constructs:");
        self.with_count.print(NAMES_OF_01);
        self.work.print();
        println!("by shape:");
        for (shape, &(all, accepted)) in Shape::ALL.iter().zip(&self.shapes) {
            println!("{all:>8}  {}; {accepted} accepted", shape.words());
        }
        println!("by size:");
        for ((_, words), (all, accepted)) in SIZES.iter().zip(self.sizes) {
            println!("{all:>8}  {words}; {accepted} accepted");
        }
        println!("{:>8}  routine parts compared, {} of them not empty", self.parts, self.filled_parts);
        self.largest.print();
    }

    /// What there was too little of.
    pub fn missing(&self) -> Vec<String> {
        let sheets = few(self.sheets, LEAST_SHEETS, "sheets");
        let answers = self.answers.missing(NAMES_OF_01, "");
        let with_deadlines = self.with_deadlines.missing(&NAMES, " with deadlines");
        let with_count = self.with_count.missing(NAMES_OF_01, " with the count");
        sheets.into_iter().chain(answers).chain(with_deadlines).chain(with_count).collect()
    }
}

fn few(count: u64, least: u64, words: &str) -> Option<String> {
    (count < least).then(|| format!("only {count} {words}, {least} are owed"))
}

impl Answers {
    fn add(&mut self, [number, place, _]: [u64; 3]) {
        self.counts[number as usize] += 1;
        self.places[number as usize].insert(place);
    }

    fn merge(&mut self, other: Answers) {
        for (number, places) in other.places.into_iter().enumerate() {
            self.counts[number] += other.counts[number];
            self.places[number].extend(places);
        }
    }

    fn print(&self, names: &[&str]) {
        for (number, name) in names.iter().enumerate() {
            println!("{:>8}  {number:>2} {name}, {} places", self.counts[number], self.places[number].len());
        }
    }

    /// Refusals that there were too few of.
    fn missing(&self, names: &[&str], how: &str) -> Vec<String> {
        (1..names.len())
            .filter_map(|number| few(self.counts[number], LEAST_OF_EACH, &format!("{}{how}", names[number])))
            .collect()
    }
}

impl Margins {
    fn add(&mut self, reply: &MarginsReply, routines: usize) {
        if reply.answer[0] != 0 {
            return;
        }
        for margin in &reply.lists.margins[..routines] {
            match margin {
                ..0 => self.late += 1,
                0 => self.just_fit += 1,
                1.. => self.early += 1,
            }
        }
    }

    fn merge(&mut self, other: &Margins) {
        self.late += other.late;
        self.just_fit += other.just_fit;
        self.early += other.early;
    }

    fn print(&self) {
        let Margins { late, just_fit, early } = self;
        println!("{:>8}  margins: {late} late, {just_fit} just fit, {early} early", late + just_fit + early);
    }
}

impl Work {
    fn merge(&mut self, other: &Work) {
        self.constructs += other.constructs;
        self.most = self.most.max(other.most);
    }

    fn print(&self) {
        println!("{:>8}  constructs counted, at most {} in a sheet", self.constructs, self.most);
    }
}

impl Largest {
    fn add(&mut self, calculation: &Calculation) {
        let mut sheet = Largest { routines: calculation.routines.len(), ..Largest::default() };
        for routine in &calculation.routines {
            sheet.measure(&routine.body, 1);
        }
        self.merge(&sheet);
    }

    fn measure(&mut self, construct: &Construct, depth: usize) {
        self.depth = self.depth.max(depth);
        match &construct.form {
            Form::Sequence { children } => self.children = self.children.max(children.len()),
            Form::Alternative { branches, .. } => {
                let marked = branches.iter().filter(|branch| branch.marked().is_some()).count();
                self.branches = self.branches.max(branches.len());
                self.marked = self.marked.max(marked);
            }
            Form::Marker { .. } => self.markers += 1,
            _ => {}
        }
        for child in construct.children() {
            self.measure(child, depth + 1);
        }
    }

    fn merge(&mut self, other: &Largest) {
        self.routines = self.routines.max(other.routines);
        self.depth = self.depth.max(other.depth);
        self.children = self.children.max(other.children);
        self.branches = self.branches.max(other.branches);
        self.marked = self.marked.max(other.marked);
        self.markers = self.markers.max(other.markers);
    }

    fn print(&self) {
        let Largest { routines, depth, children, branches, marked, markers } = self;
        println!("largest among the accepted: {routines} routines, depth {depth}, {children} children, {branches} branches,");
        println!("    {marked} of one alternative marked, {markers} markers in a sheet");
    }
}
