//! Random numbers that a seed decides (splitmix64).

pub struct Random {
    state: u64,
}

impl Random {
    /// A run of its own for each seed and name.
    pub fn new(seed: u64, name: &str) -> Self {
        let mut random = Self { state: seed };
        for byte in name.bytes() {
            random.state = random.word() ^ u64::from(byte);
        }
        random
    }

    pub fn word(&mut self) -> u64 {
        self.state = self.state.wrapping_add(0x9e37_79b9_7f4a_7c15);
        let mut word = self.state;
        word = (word ^ (word >> 30)).wrapping_mul(0xbf58_476d_1ce4_e5b9);
        word = (word ^ (word >> 27)).wrapping_mul(0x94d0_49bb_1331_11eb);
        word ^ (word >> 31)
    }

    /// A number below `end`; 0 where `end` is 0.
    pub fn below(&mut self, end: u64) -> u64 {
        self.word() % end.max(1)
    }

    /// A number from `low` to `high`, both included.
    pub fn between(&mut self, low: u64, high: u64) -> u64 {
        low + self.below(high - low + 1)
    }

    pub fn percent(&mut self, percent: u64) -> bool {
        self.below(100) < percent
    }

    pub fn pick<T: Copy>(&mut self, from: &[T]) -> T {
        from[self.below(from.len() as u64) as usize]
    }

    /// Which of N faults a call has: none, mostly; in `percent` of the calls one or more.
    pub fn faults<const N: usize>(&mut self, percent: u64) -> [bool; N] {
        if self.percent(percent) {
            std::array::from_fn(|_| self.percent(45))
        } else {
            [false; N]
        }
    }

    /// A number of a random length of at most `bits` bits.
    pub fn of_bits(&mut self, bits: u64) -> u64 {
        let length = self.below(bits + 1);
        if length == 0 {
            0
        } else {
            self.word() >> (64 - length)
        }
    }

    /// A number near `center`: at most 2 away.
    pub fn near(&mut self, center: u64) -> u64 {
        center.wrapping_add(self.below(5)).wrapping_sub(2)
    }

    /// A float from 0 to below 1.
    pub fn unit(&mut self) -> f64 {
        (self.word() >> 11) as f64 / (1u64 << 53) as f64
    }
}
