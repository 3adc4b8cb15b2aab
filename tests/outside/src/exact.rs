//! Constructs whose value is a given number, so that values come out on both sides of the limit, at every kind of record.

use crate::grow::{Grower, LARGEST_COUNT};

const LIMIT: u64 = (1 << 40) - 1;
/// From this depth on what is left is written as simply as it goes.
const PLAIN_DEPTH: usize = 12;

impl Grower<'_> {
    /// `value` is at most some 2^41.
    pub fn exact(&mut self, value: u64, depth: usize) {
        let small = value <= u32::MAX.into();
        if depth >= PLAIN_DEPTH || small && self.random.chance(60) {
            return self.exact_plain(value);
        }
        match self.random.below(6) {
            0 => self.exact_sequence(value, depth),
            1 => self.exact_alternative(value, depth),
            2 => self.exact_head_loop(value, depth),
            3 => self.exact_tail_loop(value, depth),
            4 => self.exact_timed_loop(value, depth),
            _ => self.exact_scope(value, depth),
        }
    }

    fn exact_plain(&mut self, value: u64) {
        let most = u64::from(u32::MAX);
        if value <= most {
            return self.writer.primitive(value as u32);
        }
        self.writer.tail_loop((value / most) as u32, false);
        self.writer.primitive(u32::MAX);
        self.writer.sequence(0);
        self.writer.primitive((value % most) as u32);
    }

    fn exact_sequence(&mut self, value: u64, depth: usize) {
        let n = self.random.between(1, 5);
        self.writer.sequence(n as usize);
        let mut left = value;
        for child in 1..=n {
            let part = if child == n { left } else { self.random.piece(left) };
            self.exact(part, depth + 1);
            left -= part;
        }
    }

    fn exact_alternative(&mut self, value: u64, depth: usize) {
        let condition = self.random.piece(value);
        let largest = value - condition;
        let n = self.random.between(2, 4);
        let at = self.random.below(n);
        self.writer.alternative(n as usize);
        self.exact(condition, depth + 1);
        for branch in 0..n {
            let part = if branch == at { largest } else { self.random.piece(largest) };
            self.exact(part, depth + 1);
        }
    }

    /// With count 0 the body is never run and may have any value.
    fn exact_head_loop(&mut self, value: u64, depth: usize) {
        let count = self.exact_count(value, 0);
        let condition = self.random.piece(value / (u64::from(count) + 1));
        let left = value - condition * (u64::from(count) + 1);
        let body = match left.checked_div(count.into()) {
            Some(most) => self.random.piece(most),
            None => LIMIT - self.random.skewed(3),
        };
        let left = left - body * u64::from(count);
        let init = self.random.piece(left);
        self.writer.head_loop(count, false);
        for child in [init, condition, body, left - init] {
            self.exact(child, depth + 1);
        }
    }

    fn exact_tail_loop(&mut self, value: u64, depth: usize) {
        let count = self.exact_count(value, 1);
        let once = self.random.piece(value / u64::from(count));
        let condition = self.random.piece(once);
        self.writer.tail_loop(count, false);
        for child in [once - condition, condition, value - once * u64::from(count)] {
            self.exact(child, depth + 1);
        }
    }

    fn exact_timed_loop(&mut self, value: u64, depth: usize) {
        let time = self.random.piece(value.min(u32::MAX.into()));
        self.writer.timed_loop(time as u32);
        self.exact(value - time, depth + 1);
    }

    /// T*(count; A(P0; S[M(limit, cost), ..], plain), P0, overrun): passes x excess, count x plain and the overrun add up.
    fn exact_scope(&mut self, value: u64, depth: usize) {
        let count = self.exact_count(value, 1);
        let limit = self.limit();
        let passes = u64::from(limit.min(count));
        let excess = match value.checked_div(passes) {
            Some(most) => self.random.piece(most),
            None => self.random.piece(LIMIT),
        };
        let left = value - passes * excess;
        let plain = match passes {
            0 => 0,
            _ => self.random.piece(left / u64::from(count)),
        };
        self.writer.tail_loop(count, true);
        self.writer.alternative(2);
        self.writer.primitive(0);
        let cost = self.random.piece((plain + excess).min(u32::MAX.into()));
        self.writer.sequence(2);
        self.writer.marker(limit, cost as u32);
        self.exact(plain + excess - cost, depth + 3);
        self.exact(plain, depth + 2);
        self.writer.primitive(0);
        self.exact(left - plain * u64::from(count), depth + 1);
    }

    fn exact_count(&mut self, value: u64, first: u32) -> u32 {
        let most = value.clamp(1, LARGEST_COUNT.into());
        (self.random.skewed(most) as u32).max(first)
    }
}
