//! Random constructs that break no rule, unless the style says so.

use crate::random::Random;
use crate::tree::*;
use crate::writer::Writer;

pub const DEEPEST: usize = 24;
pub const LARGEST_COUNT: u32 = 1_000_000;

/// How the constructs of one sheet come out.
#[derive(Clone)]
pub struct Style {
    /// Each kind with its weight; leaves are taken besides where nothing else fits.
    pub kinds: Vec<(u16, u64)>,
    pub largest_cost: u32,
    pub largest_count: u32,
    /// Of sequences.
    pub fewest_children: usize,
    pub most_children: usize,
    pub most_branches: usize,
    pub deepest: usize,
    /// Percent of counted loops with scope 1.
    pub scopes: u64,
    /// Percent of branches with a marker, where one may stand.
    pub marked: u64,
    /// Markers per thousand constructs that stand anywhere.
    pub loose_markers: u64,
    /// Percent of constructs that give all their records to one child; the more, the deeper.
    pub one_heir: u64,
}

/// Whether a branch below may have a marker: document 01, section "Values".
#[derive(Clone, Copy, PartialEq)]
pub enum Standing {
    /// In no scope, or where its markers would be stray.
    Barred,
    Scope {
        in_alternative: bool,
    },
}

impl Standing {
    pub const AT_SCOPE: Standing = Standing::Scope { in_alternative: false };

    fn in_loop_body(self, scope: bool) -> Standing {
        match self {
            _ if scope => Standing::AT_SCOPE,
            Standing::AT_SCOPE => self,
            _ => Standing::Barred,
        }
    }

    fn in_branch(self) -> Standing {
        match self {
            Standing::Barred => self,
            Standing::Scope { .. } => Standing::Scope { in_alternative: true },
        }
    }
}

/// Where a construct comes to stand, and of how many records it may consist.
#[derive(Clone, Copy)]
pub struct Spot {
    pub depth: usize,
    pub records: usize,
    pub standing: Standing,
}

impl Spot {
    pub fn body(records: usize) -> Spot {
        Spot { depth: 1, records, standing: Standing::Barred }
    }

    fn child(self, records: usize, standing: Standing) -> Spot {
        Spot { depth: self.depth + 1, records, standing }
    }
}

pub struct Grower<'a> {
    pub random: &'a mut Random,
    pub writer: Writer,
    pub style: Style,
    /// The routine being written, from 1.
    pub routine: u32,
}

impl Grower<'_> {
    pub fn construct(&mut self, spot: Spot) {
        if self.random.below(1_000) < self.style.loose_markers {
            return self.loose_marker();
        }
        if spot.depth > DEEPEST && self.random.chance(30) {
            return self.bad_record();
        }
        match self.kind(spot) {
            SEQUENCE => self.sequence(spot),
            ALTERNATIVE => self.alternative(spot),
            HEAD_LOOP => self.head_loop(spot),
            TAIL_LOOP => self.tail_loop(spot),
            TIMED_LOOP => self.timed_loop(spot),
            _ => self.leaf(),
        }
    }

    /// Many records are not spent on one leaf.
    fn kind(&mut self, spot: Spot) -> u16 {
        let needs = |kind| match kind {
            SEQUENCE | TIMED_LOOP => 2,
            ALTERNATIVE | TAIL_LOOP => 4,
            HEAD_LOOP => 5,
            _ => 1,
        };
        if spot.depth >= self.style.deepest {
            return PRIMITIVE;
        }
        let fits = |&(kind, _): &(u16, u64)| needs(kind) <= spot.records && (needs(kind) > 1 || spot.records < 40);
        let fitting: Vec<(u16, u64)> = self.style.kinds.iter().copied().filter(fits).collect();
        if fitting.is_empty() {
            PRIMITIVE
        } else {
            self.random.weighed(&fitting)
        }
    }

    fn leaf(&mut self) {
        match self.random.below(8) {
            0 => self.writer.sequence(0),
            1..=3 if self.routine > 1 => {
                let number = self.random.between(1, u64::from(self.routine) - 1) as u32;
                self.writer.call(number);
            }
            _ => self.primitive(),
        }
    }

    pub fn primitive(&mut self) {
        let cost = self.cost();
        self.writer.primitive(cost);
    }

    fn sequence(&mut self, spot: Spot) {
        let most = self.style.most_children.min(spot.records - 1);
        let n = if self.random.chance(20) { most } else { self.random.skewed(most as u64) as usize };
        let n = n.max(self.style.fewest_children);
        self.writer.sequence(n);
        self.children(spot, n, spot.standing);
    }

    fn children(&mut self, spot: Spot, n: usize, standing: Standing) {
        for records in self.shares(spot.records - 1, n) {
            self.construct(spot.child(records, standing));
        }
    }

    fn alternative(&mut self, spot: Spot) {
        let most = self.style.most_branches.min(spot.records - 2);
        let n = if self.random.chance(20) { most } else { 2 + self.random.skewed(most as u64 - 2) as usize };
        let plain = self.random.index(n);
        self.writer.alternative(n);
        let shares = self.shares(spot.records - 1, n + 1);
        self.construct(spot.child(shares[0], Standing::Barred));
        for (branch, &records) in shares[1..].iter().enumerate() {
            self.branch(spot.child(records, spot.standing.in_branch()), branch == plain);
        }
    }

    fn branch(&mut self, spot: Spot, plain: bool) {
        let marker_fits = spot.standing != Standing::Barred && spot.depth < self.style.deepest;
        if !plain && marker_fits && self.random.chance(self.style.marked) {
            self.marked_branch(spot);
        } else {
            self.construct(spot);
        }
    }

    pub fn marked_branch(&mut self, spot: Spot) {
        let others = self.random.skewed(4.min(spot.records.saturating_sub(2)) as u64) as usize;
        self.writer.sequence(1 + others);
        self.marker();
        for records in self.shares(spot.records.saturating_sub(2), others) {
            self.construct(spot.child(records, spot.standing));
        }
    }

    pub fn marker(&mut self) {
        let (limit, cost) = (self.limit(), self.cost());
        self.writer.marker(limit, cost);
    }

    /// Sometimes with a limit out of range besides.
    pub fn loose_marker(&mut self) {
        if self.random.chance(20) {
            self.writer.marker(LARGEST_COUNT + 1, 0);
        } else {
            self.marker();
        }
    }

    /// A record with a fault of its own, wherever it stands.
    pub fn bad_record(&mut self) {
        let own = self.routine;
        match self.random.below(8) {
            0 => self.writer.sequence(1_001),
            1 => self.writer.alternative(self.random.one_of(&[0, 1, 257])),
            2 => self.writer.head_loop(LARGEST_COUNT + 1, false),
            3 => self.writer.tail_loop(0, false),
            4 => self.writer.call(self.random.one_of(&[0, own, own + 1])),
            5 => self.writer.record(self.random.one_of(&[0, 1, 10, 77, 100]), &[0]),
            6 => self.writer.record(PRIMITIVE, &[0, 0]),
            _ => self.loose_marker(),
        }
    }

    fn head_loop(&mut self, spot: Spot) {
        let (count, scope) = (self.count(0), self.scope());
        self.writer.head_loop(count, scope);
        let body = spot.standing.in_loop_body(scope);
        let shares = self.shares(spot.records - 1, 4);
        for (records, standing) in shares.into_iter().zip([Standing::Barred, Standing::Barred, body, Standing::Barred]) {
            self.construct(spot.child(records, standing));
        }
    }

    fn tail_loop(&mut self, spot: Spot) {
        let (count, scope) = (self.count(1), self.scope());
        self.writer.tail_loop(count, scope);
        let body = spot.standing.in_loop_body(scope);
        let shares = self.shares(spot.records - 1, 3);
        for (records, standing) in shares.into_iter().zip([body, Standing::Barred, Standing::Barred]) {
            self.construct(spot.child(records, standing));
        }
    }

    fn timed_loop(&mut self, spot: Spot) {
        let time = self.cost();
        self.writer.timed_loop(time);
        self.children(spot, 1, Standing::Barred);
    }

    /// At least one record for each child; the others go to all alike, to one child, or at random.
    fn shares(&mut self, records: usize, n: usize) -> Vec<usize> {
        let mut shares = vec![1; n];
        let mut left = records.saturating_sub(n);
        if n == 0 {
            return shares;
        }
        if self.random.chance(self.style.one_heir) {
            shares[self.random.index(n)] += left;
            return shares;
        }
        match self.random.below(2) {
            0 => shares.iter_mut().for_each(|share| *share += left / n),
            _ => {
                for share in &mut shares {
                    let part = self.random.between(0, left.min(4 * records / n) as u64) as usize;
                    *share += part;
                    left -= part;
                }
            }
        }
        shares
    }

    fn scope(&mut self) -> bool {
        self.random.chance(self.style.scopes)
    }

    pub fn cost(&mut self) -> u32 {
        let largest = self.style.largest_cost;
        if self.random.chance(5) {
            return largest;
        }
        self.random.skewed(largest.into()) as u32
    }

    pub fn count(&mut self, first: u32) -> u32 {
        let largest = self.style.largest_count.max(first);
        match self.random.below(10) {
            0 => first,
            1 => largest,
            2 => 1,
            3 => (1 << self.random.below(20)).min(largest),
            _ => (self.random.skewed(largest.into()) as u32).max(first),
        }
    }

    pub fn limit(&mut self) -> u32 {
        match self.random.below(8) {
            0 => 0,
            1 => LARGEST_COUNT,
            2 => self.random.between(0, 12) as u32,
            3 => 1 << self.random.below(20),
            _ => self.random.skewed(LARGEST_COUNT.into()) as u32,
        }
    }
}
