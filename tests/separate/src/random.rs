//! A small generator of random numbers (splitmix64), so that a seed gives the same inputs everywhere.

pub struct Random(u64);

impl Random {
    pub fn new(seed: u64) -> Random {
        Random(seed)
    }

    pub fn word(&mut self) -> u64 {
        self.0 = self.0.wrapping_add(0x9e37_79b9_7f4a_7c15);
        let mut word = self.0;
        word = (word ^ (word >> 30)).wrapping_mul(0xbf58_476d_1ce4_e5b9);
        word = (word ^ (word >> 27)).wrapping_mul(0x94d0_49bb_1331_11eb);
        word ^ (word >> 31)
    }

    /// From 0 to `end` − 1; `end` is not 0.
    pub fn below(&mut self, end: usize) -> usize {
        (self.word() % end as u64) as usize
    }

    pub fn between(&mut self, first: usize, last: usize) -> usize {
        first + self.below(last - first + 1)
    }

    pub fn one_in(&mut self, odds: usize) -> bool {
        self.below(odds) == 0
    }

    pub fn pick<T: Copy>(&mut self, choices: &[T]) -> T {
        choices[self.below(choices.len())]
    }

    pub fn shuffle<T>(&mut self, cells: &mut [T]) {
        for place in (1..cells.len()).rev() {
            cells.swap(place, self.below(place + 1));
        }
    }

    /// A number at, around or far beyond a limit, or an ordinary one.
    pub fn around(&mut self, limit: usize) -> usize {
        let far = [1 << 32, 1 << 62, 1 << 63, usize::MAX - 1, usize::MAX];
        match self.below(8) {
            0 => 0,
            1 => 1,
            2 => limit.wrapping_sub(1),
            3 => limit,
            4 => limit + 1,
            5 => self.pick(&far),
            _ => self.below(limit + 1),
        }
    }
}
