//! Sheets of every shape. A seed makes the same sheet on every machine.

use crate::damage::damage;
use crate::grow::{Grower, Spot, Standing, Style, DEEPEST, LARGEST_COUNT};
use crate::random::Random;
use crate::tree::*;
use crate::writer::Writer;

pub const LONGEST: usize = 60_000;
const LIMIT: u64 = (1 << 40) - 1;
const MOST_ROUTINES: u32 = 64;
const MOST_CHILDREN: usize = 1_000;
const MOST_BRANCHES: usize = 256;

pub struct Sheet {
    pub bytes: Vec<u8>,
    pub shape: Shape,
    pub damaged: bool,
}

macro_rules! shapes {
    ($($shape:ident $weight:literal $damage:literal $words:literal,)*) => {
        #[derive(Clone, Copy, Debug, PartialEq, Eq)]
        pub enum Shape { $($shape,)* }

        impl Shape {
            pub const ALL: &'static [Shape] = &[$(Shape::$shape,)*];
            const WEIGHTS: &'static [(Shape, u64)] = &[$((Shape::$shape, $weight),)*];

            pub fn words(self) -> &'static str {
                match self { $(Shape::$shape => $words,)* }
            }

            /// Percent of its sheets that are damaged.
            fn damage(self) -> u64 {
                match self { $(Shape::$shape => $damage,)* }
            }
        }
    };
}

shapes! {
    Small 200 50 "small, of all kinds",
    Middle 90 50 "some hundred records, of all kinds",
    Large 40 25 "up to 60,000 bytes, of all kinds",
    Full 18 10 "60,000 bytes or a little less",
    Flat 20 30 "one long sequence",
    Deep 60 30 "down to depth 24",
    Branches 30 20 "alternatives of up to 256 branches",
    Loops 80 30 "loops in loops",
    Scopes 150 25 "scopes and markers",
    Calls 60 35 "many routines",
    Products 40 10 "large counts over a marker",
    Limit 120 25 "values at the limit",
    Sums 20 5 "a scope's markers add up to 2^64 and more",
    TooDeep 30 20 "deeper than 24",
    Strays 60 10 "markers out of place",
    AllMarked 30 20 "alternatives without a plain branch",
    Noise 20 0 "few bytes, or random ones",
    TooLong 12 0 "over 60,000 bytes",
}

pub fn sheet(seed: u64) -> Sheet {
    let mut random = Random::new(seed);
    let shape = random.weighed(Shape::WEIGHTS);
    let mut writer = made(shape, &mut random);
    let damaged = random.chance(shape.damage());
    if damaged {
        damage(&mut writer, &mut random);
    }
    Sheet { bytes: writer.bytes, shape, damaged }
}

fn made(shape: Shape, random: &mut Random) -> Writer {
    match shape {
        Shape::Small => grown(random, all_kinds, 40, 3),
        Shape::Middle => grown(random, all_kinds, 600, 6),
        Shape::Large => grown(random, all_kinds, 6_500, 10),
        Shape::Full => full(random),
        Shape::Flat => flat(random),
        Shape::Deep => grown(random, deep, 200, 2),
        Shape::Branches => grown(random, branches, 1_500, 2),
        Shape::Loops => grown(random, loops, 100, 2),
        Shape::Scopes => grown(random, scopes, 150, 3),
        Shape::Calls => calls(random),
        Shape::Products => products(random),
        Shape::Limit => limit(random),
        Shape::Sums => sums(random),
        Shape::TooDeep => grown(random, too_deep, 200, 2),
        Shape::Strays => strays(random),
        Shape::AllMarked => all_marked(random),
        Shape::Noise => noise(random),
        Shape::TooLong => too_long(random),
    }
}

// ---- styles

/// Costs and counts go together, so that most sheets stay under the limit.
fn all_kinds(random: &mut Random) -> Style {
    let (largest_cost, largest_count) =
        random.one_of(&[(9, 3), (200, 2), (5_000, 10), (u32::MAX, 1), (0, LARGEST_COUNT), (1, 40)]);
    Style {
        kinds: vec![(PRIMITIVE, 4), (SEQUENCE, 6), (ALTERNATIVE, 3), (HEAD_LOOP, 2), (TAIL_LOOP, 2), (TIMED_LOOP, 1)],
        largest_cost,
        largest_count,
        fewest_children: 0,
        most_children: random.one_of(&[5, 30, MOST_CHILDREN]),
        most_branches: random.one_of(&[3, 8, MOST_BRANCHES]),
        deepest: random.between(4, DEEPEST as u64) as usize,
        scopes: random.one_of(&[0, 30, 70]),
        marked: random.one_of(&[10, 50, 90]),
        loose_markers: 0,
        one_heir: random.one_of(&[10, 33, 80]),
    }
}

fn deep(random: &mut Random) -> Style {
    let kinds = vec![(SEQUENCE, 5), (ALTERNATIVE, 2), (HEAD_LOOP, 1), (TAIL_LOOP, 1), (TIMED_LOOP, 3)];
    let (fewest_children, most_children, most_branches, one_heir) = (1, 2, 3, 97);
    Style { kinds, deepest: DEEPEST, fewest_children, most_children, most_branches, one_heir, ..all_kinds(random) }
}

fn too_deep(random: &mut Random) -> Style {
    let deepest = random.between(DEEPEST as u64 + 1, 30) as usize;
    Style { deepest, loose_markers: random.one_of(&[0, 0, 20]), ..deep(random) }
}

fn branches(random: &mut Random) -> Style {
    let kinds = vec![(PRIMITIVE, 2), (SEQUENCE, 1), (ALTERNATIVE, 6), (TAIL_LOOP, 2)];
    Style { kinds, most_branches: MOST_BRANCHES, scopes: 80, marked: 90, ..all_kinds(random) }
}

fn loops(random: &mut Random) -> Style {
    let kinds = vec![(SEQUENCE, 1), (HEAD_LOOP, 4), (TAIL_LOOP, 3), (TIMED_LOOP, 1)];
    Style { kinds, most_children: 3, ..all_kinds(random) }
}

fn scopes(random: &mut Random) -> Style {
    let kinds = vec![(PRIMITIVE, 1), (SEQUENCE, 3), (ALTERNATIVE, 4), (HEAD_LOOP, 2), (TAIL_LOOP, 2)];
    let (scopes, marked) = (random.one_of(&[30, 60, 100]), random.one_of(&[50, 90]));
    Style { kinds, most_children: 4, most_branches: 5, scopes, marked, ..all_kinds(random) }
}

// ---- shapes

fn grown(random: &mut Random, style: fn(&mut Random) -> Style, most_records: usize, most_routines: u64) -> Writer {
    let style = style(random);
    let routines = random.between(1, most_routines);
    let records = random.between(most_records as u64 / 10, most_records as u64) as usize;
    let mut grower = Grower { random, writer: Writer::sheet(), style, routine: 0 };
    for _ in 0..routines {
        grower.routine(records / routines as usize);
    }
    let routines = grower.routine;
    grower.writer.finish(routines)
}

impl Grower<'_> {
    /// No more records than the sheet has room for.
    fn routine(&mut self, records: usize) {
        const LONGEST_RECORD: usize = 12;
        let room = (LONGEST - self.writer.bytes.len()) / LONGEST_RECORD;
        if room < 60 {
            return;
        }
        self.start_routine();
        self.construct(Spot::body(records.clamp(1, room - 50)));
    }

    fn start_routine(&mut self) {
        let organisation = self.cost();
        self.routine += 1;
        self.writer.routine(organisation);
    }
}

fn grower(random: &mut Random) -> Grower<'_> {
    let style = all_kinds(random);
    Grower { random, writer: Writer::sheet(), style, routine: 0 }
}

/// Some routines, and a last one that fills what is left.
fn full(random: &mut Random) -> Writer {
    let exactly = random.chance(60);
    let mut grower = grower(random);
    for _ in 0..grower.random.between(0, 12) {
        let records = grower.random.between(1, 1_500) as usize;
        grower.routine(records);
    }
    grower.start_routine();
    let less = if exactly { 0 } else { 4 * grower.random.index(20) };
    let left = LONGEST - less - grower.writer.bytes.len();
    fill(&mut grower, left);
    let routines = grower.routine;
    grower.writer.finish(routines)
}

/// A body of `length` bytes: a sequence of long sequences, with a tail loop where the records of 8 bytes leave 4 over.
fn fill(grower: &mut Grower, length: usize) {
    const TAIL_LOOP_LENGTH: usize = 36;
    let odd = length % 8 == 4;
    let mut records = (length - 8 - if odd { TAIL_LOOP_LENGTH } else { 0 }) / 8;
    let sequences = records.div_ceil(MOST_CHILDREN + 1);
    grower.writer.sequence(sequences + usize::from(odd));
    if odd {
        grower.writer.tail_loop(1, false);
        (0..3).for_each(|_| grower.primitive());
    }
    for _ in 0..sequences {
        let children = (records - 1).min(MOST_CHILDREN);
        grower.writer.sequence(children);
        (0..children).for_each(|_| grower.primitive());
        records -= children + 1;
    }
}

fn flat(random: &mut Random) -> Writer {
    let mut grower = grower(random);
    grower.start_routine();
    let n = grower.random.one_of(&[0, 1, 2, 998, 999, 1_000, 1_001, 1_002]).max(grower.random.skewed(1_000) as usize);
    grower.writer.sequence(n);
    for _ in 0..n {
        let records = grower.random.one_of(&[1, 1, 1, 6]);
        grower.construct(Spot { depth: 2, records, standing: Standing::Barred });
    }
    grower.writer.finish(1)
}

fn calls(random: &mut Random) -> Writer {
    let routines = random.one_of(&[2, 5, 20, 63, MOST_ROUTINES, MOST_ROUTINES]);
    let mut grower = grower(random);
    for _ in 0..routines {
        let records = grower.random.between(1, 14) as usize;
        grower.start_routine();
        grower.construct(Spot::body(records));
    }
    let declared = routines + u32::from(grower.random.chance(3));
    grower.writer.finish(declared)
}

/// Loops that cost nothing, with counts whose product passes 2^64 and often is a multiple of it.
fn products(random: &mut Random) -> Writer {
    let power = random.chance(70);
    let mut grower = grower(random);
    grower.style.largest_count = LARGEST_COUNT;
    grower.start_routine();
    let nested = grower.random.between(1, 8) as usize;
    for level in 0..nested {
        let count = if power { 1 << grower.random.between(10, 19) } else { grower.count(1) };
        grower.writer.tail_loop(count, level == 0);
    }
    let free = Style { largest_cost: 0, largest_count: 1, ..grower.style.clone() };
    grower.writer.alternative(2);
    grower.writer.primitive(0);
    grower.writer.sequence(2);
    grower.marker();
    grower.primitive();
    grower.style = free;
    grower.construct(Spot { depth: nested + 2, records: 8, standing: Standing::Barred });
    for _ in 0..2 * nested {
        grower.writer.sequence(0);
    }
    grower.writer.finish(1)
}

/// The limit itself and its neighbours, in one routine or in several.
fn limit(random: &mut Random) -> Writer {
    let mut grower = grower(random);
    for _ in 0..grower.random.between(1, 3) {
        let value = match grower.random.below(4) {
            0 => LIMIT + 1 + grower.random.skewed(1 << 20),
            1 => grower.random.skewed(LIMIT),
            _ => LIMIT + 3 - grower.random.below(7),
        };
        let organisation = grower.random.piece(value.min(u32::MAX.into()));
        grower.routine += 1;
        grower.writer.routine(organisation as u32);
        if grower.routine > 1 && grower.random.chance(30) {
            grower.writer.sequence(2);
            grower.leaf_call();
        }
        grower.exact(value - organisation, 2);
    }
    let routines = grower.routine;
    grower.writer.finish(routines)
}

impl Grower<'_> {
    fn leaf_call(&mut self) {
        let number = self.random.between(1, u64::from(self.routine) - 1) as u32;
        self.writer.call(number);
    }
}

/// 2^a of excess, 2^b passes and 2^c markers with a + b + c = 64 and more: such a sum would be 0 in 64 bits.
fn sums(random: &mut Random) -> Writer {
    const FULL_COST: u32 = u32::MAX;
    let mut writer = Writer::sheet();
    let excess = random.between(37, 39);
    let times = 1u32 << (excess - 32);
    writer.routine(times);
    writer.tail_loop(times, false);
    writer.primitive(FULL_COST);
    writer.sequence(0);
    writer.sequence(0);
    let passes = 1u32 << random.between(15, 19);
    let markers = (1usize << (64 - excess - u64::from(passes.ilog2()))).min(2_048);
    let alternatives = markers.div_ceil(MOST_BRANCHES - 1);
    writer.routine(0);
    writer.tail_loop(passes, true);
    writer.sequence(alternatives);
    let mut left = markers;
    for _ in 0..alternatives {
        let marked = left.min(MOST_BRANCHES - 1);
        writer.alternative(marked + 1);
        writer.primitive(0);
        for _ in 0..marked {
            writer.sequence(2);
            writer.marker(passes, 0);
            writer.call(1);
        }
        writer.sequence(0);
        left -= marked;
    }
    writer.sequence(0);
    let over = random.one_of(&[0, 0, 7]);
    writer.primitive(over);
    writer.finish(2)
}

/// Each reason for which a marker is stray, among constructs that are well, and some that look like one but are allowed.
fn strays(random: &mut Random) -> Writer {
    let mut style = scopes(random);
    if random.chance(40) {
        style.loose_markers = 15;
    }
    let before = random.below(6) as usize;
    let mut grower = Grower { random, writer: Writer::sheet(), style, routine: 0 };
    grower.start_routine();
    grower.writer.sequence(before + 2);
    for _ in 0..before {
        grower.construct(Spot { depth: 2, records: 30, standing: Standing::Barred });
    }
    let reason = grower.random.below(14);
    grower.stray(reason);
    grower.construct(Spot { depth: 2, records: 30, standing: Standing::Barred });
    grower.writer.finish(1)
}

impl Grower<'_> {
    fn stray(&mut self, reason: u64) {
        match reason {
            0 => self.loose_marker(),
            1 => self.parts(&["S", "M"]),
            2 => self.parts(&["A", "P", "SM", "P"]),
            3 => self.parts(&["T*", "M", "P", "P"]),
            4 => self.parts(&["T*", "SM", "P", "P"]),
            5 => self.parts(&["T*", "A", "P", "M", "P", "P", "P"]),
            6 => self.parts(&["T*", "A", "P", "S2", "P", "M", "P", "P", "P"]),
            7 => self.parts(&["T*", "A", "A", "P", "SM", "P", "P", "P", "P", "P"]),
            8 => self.parts(&["T*", "P", "A", "P", "SM", "P", "P"]),
            9 => self.parts(&["T*", "P", "P", "A", "P", "SM", "P"]),
            10 => self.parts(&["T*", "W", "A", "P", "SM", "P", "P", "P"]),
            11 => self.parts(&["T*", "A", "P", "T", "A", "P", "SM", "P", "P", "P", "P", "P", "P"]),
            12 => self.parts(&["H*", "A", "P", "SM", "P", "P", "P", "P"]),
            // Allowed: the alternative lies around the whole scope.
            _ => self.parts(&["A", "P", "T*", "T", "A", "P", "SM", "P", "P", "P", "P", "P", "P"]),
        }
    }

    /// Records in short: the kind's letter, S for a sequence of one, SM for one with a marker, a star for scope 1.
    fn parts(&mut self, parts: &[&str]) {
        for &part in parts {
            match part {
                "P" => self.primitive(),
                "M" => self.loose_marker(),
                "S" => self.writer.sequence(1),
                "S2" => self.writer.sequence(2),
                "SM" => {
                    self.writer.sequence(1);
                    self.marker();
                }
                "A" => self.writer.alternative(2),
                "W" => self.writer.timed_loop(1),
                "H*" => self.writer.head_loop(1, true),
                "T*" => self.writer.tail_loop(1, true),
                _ => self.writer.tail_loop(1, false),
            }
        }
    }
}

/// Every branch has a marker; what follows the last marker is sometimes bad too, and must not matter.
fn all_marked(random: &mut Random) -> Writer {
    let style = scopes(random);
    let n = random.one_of(&[2, 3, 4, 9, 100, MOST_BRANCHES]);
    let before = random.below(6) as usize;
    let mut grower = Grower { random, writer: Writer::sheet(), style, routine: 0 };
    grower.start_routine();
    grower.writer.sequence(before + 1);
    for _ in 0..before {
        grower.construct(Spot { depth: 2, records: 40, standing: Standing::Barred });
    }
    let count = grower.count(1);
    grower.writer.tail_loop(count, true);
    grower.writer.alternative(n);
    grower.primitive();
    let plain = if grower.random.chance(10) { grower.random.index(n) } else { n };
    for branch in 0..n {
        if branch == plain {
            grower.primitive();
        } else if branch == n - 1 && grower.random.chance(40) {
            grower.writer.sequence(2);
            grower.loose_marker();
            grower.bad_record();
        } else {
            grower.marked_branch(Spot { depth: 4, records: 6, standing: Standing::Scope { in_alternative: true } });
        }
    }
    if grower.random.chance(30) {
        grower.bad_record();
    }
    grower.primitive();
    grower.primitive();
    grower.writer.finish(1)
}

fn noise(random: &mut Random) -> Writer {
    let mut writer = grown(random, all_kinds, 10, 2);
    match random.below(4) {
        0 => writer.bytes.truncate(random.skewed(30) as usize),
        1 => writer.bytes = (0..random.skewed(400)).map(|_| random.next() as u8).collect(),
        2 => writer.bytes = (0..random.skewed(200)).map(|_| random.one_of(&[0, 1, 2, 3, 8, 12, 100])).collect(),
        _ => writer.bytes[4..].iter_mut().for_each(|byte| *byte = random.next() as u8),
    }
    writer
}

fn too_long(random: &mut Random) -> Writer {
    let mut writer = if random.chance(50) { full(random) } else { grown(random, all_kinds, 300, 3) };
    let length = LONGEST + random.one_of(&[1, 1, 2, 4, 8, 5_536, 10_000, 40_000]);
    writer.bytes.resize(length, random.next() as u8);
    writer
}
