//! Times for calls: most go on by steps of one size, some stand still, jump, or are refused.

use crate::generate::values::{CALL_LIMIT, TIME_LIMIT};
use crate::random::Random;
use crate::script::Script;

pub struct Times {
    now: u64,
    unit: u64,
}

impl Times {
    /// From a random start, by steps of nanoseconds up to steps of hours.
    pub fn new(random: &mut Random) -> Self {
        let now = match random.below(20) {
            0..=9 => 0,
            10..=15 => random.of_bits(50),
            16 => random.below(TIME_LIMIT),
            17 => TIME_LIMIT - random.below(1_000_000_000),
            18 => TIME_LIMIT - 2 + random.below(3),
            _ => random.of_bits(62),
        };
        let unit = random.pick(&[
            10,
            1_000,
            1_000_000,
            20_000_000,
            1_000_000_000,
            3_600_000_000_000,
        ]);
        Self { now, unit }
    }

    pub fn now(&self) -> u64 {
        self.now
    }

    /// A time that is not before those given so far.
    pub fn next(&mut self, random: &mut Random) -> u64 {
        let step = match random.below(20) {
            0..=1 => 0,
            2 => 1,
            3 => random.below(1000 * self.unit),
            4 => random.pick(&[1_000, 1_000_000, 1_000_000_000]),
            _ => random.between(1, self.unit),
        };
        self.advance(step)
    }

    pub fn advance(&mut self, step: u64) -> u64 {
        self.now = self.now.saturating_add(step).min(TIME_LIMIT);
        self.now
    }

    /// A time that is before the last or above 2^62 (or, where nothing is before it, the same).
    pub fn refused(&self, random: &mut Random) -> u64 {
        match random.below(6) {
            0 | 1 => self.now.saturating_sub(1),
            2 => random.below(self.now),
            3 => TIME_LIMIT + 1,
            4 => random.pick(&[TIME_LIMIT + 2, 1 << 63, u64::MAX]),
            _ => TIME_LIMIT + 1 + random.of_bits(63),
        }
    }
}

/// A module's call count comes near its limit, `call` is made until it is used up and beyond, and the count is set
/// back.
pub fn at_call_limit(
    script: &mut Script,
    random: &mut Random,
    set_calls: u64,
    mut call: impl FnMut(&mut Script, &mut Random),
) {
    let left = random.below(4);
    script.call(set_calls, &[CALL_LIMIT - left]);
    for _ in 0..left + random.between(1, 3) {
        call(script, random);
    }
    if random.percent(30) {
        script.call(
            set_calls,
            &[random.pick(&[CALL_LIMIT + 1, 1 << 63, u64::MAX])],
        );
        call(script, random);
    }
    script.call(set_calls, &[random.of_bits(39)]);
}
