//! Random numbers that are the same on every machine (SplitMix64).

pub struct Random {
    state: u64,
}

impl Random {
    pub fn new(seed: u64) -> Random {
        Random { state: seed.wrapping_mul(0x9E37_79B9_7F4A_7C15) ^ 0x6D61_7874 }
    }

    pub fn next(&mut self) -> u64 {
        self.state = self.state.wrapping_add(0x9E37_79B9_7F4A_7C15);
        let mut mixed = self.state;
        mixed = (mixed ^ (mixed >> 30)).wrapping_mul(0xBF58_476D_1CE4_E5B9);
        mixed = (mixed ^ (mixed >> 27)).wrapping_mul(0x94D0_49BB_1331_11EB);
        mixed ^ (mixed >> 31)
    }

    /// From 0 to one less than `end`, which is not 0.
    pub fn below(&mut self, end: u64) -> u64 {
        self.next() % end
    }

    pub fn between(&mut self, first: u64, last: u64) -> u64 {
        first + self.below(last - first + 1)
    }

    pub fn index(&mut self, end: usize) -> usize {
        self.below(end as u64) as usize
    }

    pub fn chance(&mut self, percent: u64) -> bool {
        self.below(100) < percent
    }

    pub fn one_of<T: Copy>(&mut self, choices: &[T]) -> T {
        choices[self.index(choices.len())]
    }

    /// With the chance of its weight.
    pub fn weighed<T: Copy>(&mut self, choices: &[(T, u64)]) -> T {
        let total = choices.iter().map(|&(_, weight)| weight).sum();
        let mut left = self.below(total);
        for &(choice, weight) in choices {
            if left < weight {
                return choice;
            }
            left -= weight;
        }
        unreachable!("what is left is less than the total")
    }

    /// Small numbers far more often than large ones, both ends included.
    pub fn skewed(&mut self, last: u64) -> u64 {
        let bits = u64::from(64 - last.leading_zeros());
        let kept = self.between(0, bits);
        (self.next() & ((1u64 << kept) - 1)).min(last)
    }

    /// A part of a number: nothing, all of it, nearly all of it, or anything between.
    pub fn piece(&mut self, whole: u64) -> u64 {
        match self.below(5) {
            0 => 0,
            1 => whole,
            2 => whole - self.skewed(whole.min(1_000)),
            _ => self.between(0, whole),
        }
    }
}
