//! The token bucket: packets at many rates and time steps, credits beside whole bytes, and refusals.

use crate::generate::times::{at_call_limit, Times};
use crate::generate::values::*;
use crate::operation::*;
use crate::random::Random;
use crate::script::Script;

const SECOND: u64 = 1_000_000_000;
const MILLISECOND: u64 = 1_000_000;

const RATES: [u64; 12] = [
    1,
    2,
    3,
    7,
    1_250,
    10_000,
    1_000_000,
    16_777_217,
    100_000_000,
    999_999_999,
    RATE_LIMIT,
    333_333_333,
];
const REFUSED_RATES: [u64; 5] = [
    0,
    RATE_LIMIT + 1,
    u32::MAX as u64,
    1 << 32,
    (1 << 32) + RATE_LIMIT + 1,
];
const CAPACITIES: [u64; 9] = [
    0,
    1,
    2,
    1_472,
    1_500,
    10_000,
    100_000,
    999_999_999,
    RATE_LIMIT,
];
const BYTES: [u64; 8] = [0, 1, 100, 1_472, 1_500, 65_536, 999_999_999, RATE_LIMIT];
const REFUSED_BYTES: [u64; 4] = [RATE_LIMIT + 1, (1 << 32) + 1, 1 << 63, u64::MAX];

pub fn boundary(script: &mut Script) {
    before_any_new(script);
    settled_example(script);
    credits(script);
    rate_change(script);
    waits(script);
    capacities(script);
    refused(script);
    times(script);
    at_limit(script);
    news(script);
    zero_bucket(script);
    longest_wait_and_credit(script);
}

/// Rate 1 and capacity 0.
fn before_any_new(script: &mut Script) {
    script.call(TRY_CONSUME, &[0, 1]);
    script.call(REFILL, &[SECOND]);
    script.call(SET_CAPACITY, &[5]);
    script.call(REFILL, &[4 * SECOND]);
}

/// 10,000 bytes/s, full 1,500: take 1,472, 28 left; 1 ms later 38; 1,472 more waits 143,400,000 ns.
fn settled_example(script: &mut Script) {
    script.call(BUCKET_NEW, &[0, 10_000, 1_500]);
    script.call(TRY_CONSUME, &[0, 1_472]);
    script.call(REFILL, &[MILLISECOND]);
    script.call(TIME_UNTIL_AVAILABLE, &[MILLISECOND, 1_472]);
    script.call(TRY_CONSUME, &[MILLISECOND, 1_472]);
    script.call(TRY_CONSUME, &[144_399_999, 1_472]);
    script.call(TRY_CONSUME, &[144_400_000, 1_472]);
}

/// Credit 0 leaves the refill time; seconds and their fraction are rounded apart.
fn credits(script: &mut Script) {
    script.call(BUCKET_NEW, &[0, 10_000, 1_500]);
    script.call(FORCE_CONSUME, &[0, 1_500]);
    for time in [99_999, 100_000, 199_999, 200_000, 500_000] {
        script.call(REFILL, &[time]);
    }
    script.call(BUCKET_NEW, &[0, 1_250, 5_000]);
    script.call(FORCE_CONSUME, &[0, 5_000]);
    script.call(REFILL, &[1_069_600_000]);
    script.call(BUCKET_NEW, &[7, 3, 10]);
    script.call(FORCE_CONSUME, &[7, RATE_LIMIT]);
    for time in [
        333_333_340,
        333_333_341,
        666_666_674,
        SECOND + 7,
        2 * SECOND,
    ] {
        script.call(REFILL, &[time]);
    }
}

/// Where the old rate gives no credit, the new one has the time since the refill.
fn rate_change(script: &mut Script) {
    script.call(BUCKET_NEW, &[0, 1, 1_500]);
    script.call(FORCE_CONSUME, &[0, 1_500]);
    script.call(SET_RATE, &[999_999_999, RATE_LIMIT]);
    script.call(REFILL, &[999_999_999]);
    script.call(SET_RATE, &[SECOND, 1]);
    script.call(REFILL, &[2 * SECOND]);
}

/// The wait does not count time already passed.
fn waits(script: &mut Script) {
    script.call(BUCKET_NEW, &[0, 10_000, 1_500]);
    script.call(FORCE_CONSUME, &[0, 1_500]);
    script.call(TIME_UNTIL_AVAILABLE, &[0, 1]);
    script.call(TIME_UNTIL_AVAILABLE, &[1_000, 1]);
    script.call(TIME_UNTIL_AVAILABLE, &[1_000, 0]);
    script.call(SET_RATE, &[1_000, 3]);
    for bytes in [1, 2, 3, 1_472, RATE_LIMIT] {
        script.call(TIME_UNTIL_AVAILABLE, &[1_000, bytes]);
    }
    script.call(TRY_CONSUME, &[1_000, 1]);
    script.call(FORCE_CONSUME, &[1_000, 1]);
}

fn capacities(script: &mut Script) {
    script.call(BUCKET_NEW, &[0, RATE_LIMIT, RATE_LIMIT]);
    for capacity in [RATE_LIMIT, RATE_LIMIT + 1, 1_500, 1, 0, u64::MAX, 2] {
        script.call(SET_CAPACITY, &[capacity]);
    }
    script.call(REFILL, &[1]);
    script.call(REFILL, &[2]);
    script.call(REFILL, &[TIME_LIMIT]);
    script.call(TRY_CONSUME, &[TIME_LIMIT, 2]);
}

/// 6 before 7 before 17 before 11; nothing moves.
fn refused(script: &mut Script) {
    script.call(BUCKET_NEW, &[100, 1_000, 1_000]);
    for operation in [TRY_CONSUME, FORCE_CONSUME, TIME_UNTIL_AVAILABLE] {
        for bytes in REFUSED_BYTES {
            script.call(operation, &[100, bytes]);
        }
        script.call(operation, &[TIME_LIMIT + 1, RATE_LIMIT + 1]);
        script.call(operation, &[TIME_LIMIT + 1, 1]);
        script.call(operation, &[99, RATE_LIMIT + 1]);
        script.call(operation, &[99, 1]);
    }
    for rate in REFUSED_RATES {
        script.call(SET_RATE, &[100, rate]);
    }
    script.call(SET_RATE, &[99, 0]);
    script.call(SET_RATE, &[99, 1]);
    script.call(SET_RATE, &[TIME_LIMIT + 1, 1]);
    script.call(BUCKET_CALLS, &[CALL_LIMIT]);
    script.call(TRY_CONSUME, &[99, RATE_LIMIT + 1]);
    script.call(TRY_CONSUME, &[TIME_LIMIT + 1, 1]);
    script.call(TRY_CONSUME, &[99, 1]);
    script.call(SET_RATE, &[99, 0]);
    script.call(SET_CAPACITY, &[RATE_LIMIT + 1]);
    script.call(SET_CAPACITY, &[1]);
}

fn times(script: &mut Script) {
    script.call(BUCKET_NEW, &[5, 1, 1_000_000]);
    for time in [
        4,
        5,
        5,
        6,
        5,
        TIME_LIMIT + 1,
        u64::MAX,
        TIME_LIMIT - 1,
        TIME_LIMIT,
        TIME_LIMIT - 1,
    ] {
        script.call(REFILL, &[time]);
    }
    script.call(TRY_CONSUME, &[TIME_LIMIT, 1]);
}

fn at_limit(script: &mut Script) {
    script.call(BUCKET_NEW, &[0, 1_000, 1_000]);
    for (time, calls) in [
        (1, CALL_LIMIT - 2),
        (2, CALL_LIMIT + 1),
        (3, u64::MAX),
        (4, CALL_LIMIT - 1),
    ] {
        script.call(BUCKET_CALLS, &[calls]);
        script.call(TRY_CONSUME, &[time, 1]);
        script.call(SET_CAPACITY, &[900]);
        script.call(TIME_UNTIL_AVAILABLE, &[time, 1_000]);
    }
    script.call(BUCKET_CALLS, &[0]);
    script.call(REFILL, &[5]);
}

fn news(script: &mut Script) {
    for rate in REFUSED_RATES {
        script.call(BUCKET_NEW, &[1, rate, 1]);
    }
    for capacity in REFUSED_BYTES {
        script.call(BUCKET_NEW, &[1, 1, capacity]);
    }
    script.call(BUCKET_NEW, &[TIME_LIMIT + 1, 0, 1]);
    script.call(BUCKET_NEW, &[TIME_LIMIT + 1, 1, 1]);
    script.call(BUCKET_NEW, &[TIME_LIMIT, RATE_LIMIT, RATE_LIMIT]);
    script.call(BUCKET_NEW, &[u64::MAX, 1, 1]);
    // a new bucket may be older than the last one
    script.call(BUCKET_NEW, &[3, (1 << 32) + 5, 7]);
}

/// Rate 0 is credited nothing, and its wait is the largest.
fn zero_bucket(script: &mut Script) {
    script.call(BUCKET_NEW, &[1, 0, 1]);
    script.call(REFILL, &[SECOND]);
    script.call(TRY_CONSUME, &[SECOND, 0]);
    script.call(TRY_CONSUME, &[SECOND, 1]);
    script.call(FORCE_CONSUME, &[SECOND, 1]);
    script.call(TIME_UNTIL_AVAILABLE, &[SECOND, 0]);
    script.call(TIME_UNTIL_AVAILABLE, &[SECOND, 1]);
    script.call(SET_CAPACITY, &[50]);
    script.call(REFILL, &[2 * SECOND]);
    script.call(TIME_UNTIL_AVAILABLE, &[2 * SECOND, RATE_LIMIT]);
    script.call(SET_RATE, &[2 * SECOND, 10]);
    script.call(TIME_UNTIL_AVAILABLE, &[2 * SECOND, 21]);
}

fn longest_wait_and_credit(script: &mut Script) {
    script.call(BUCKET_NEW, &[0, 1, RATE_LIMIT]);
    script.call(FORCE_CONSUME, &[0, RATE_LIMIT]);
    script.call(TIME_UNTIL_AVAILABLE, &[0, RATE_LIMIT]);
    script.call(SET_RATE, &[0, RATE_LIMIT]);
    script.call(TIME_UNTIL_AVAILABLE, &[0, 1]);
    script.call(REFILL, &[1]);
    script.call(REFILL, &[TIME_LIMIT]);
}

/// A bucket's time, and the rate as last set.
struct Run {
    times: Times,
    rate: u64,
    packet: u64,
}

pub fn episode(script: &mut Script, random: &mut Random, length: u64) {
    let mut run = make(script, random);
    for _ in 0..length {
        run.call(script, random);
    }
    if random.percent(20) {
        at_call_limit(script, random, BUCKET_CALLS, |script, random| {
            run.call(script, random)
        });
    }
}

/// A new bucket; now and then one that is refused, so that the zero bucket is used.
fn make(script: &mut Script, random: &mut Random) -> Run {
    let times = Times::new(random);
    let (time, rate, capacity) = match random.below(24) {
        0 => (times.now(), random.pick(&REFUSED_RATES), capacity(random)),
        1 => (times.now(), rate(random), random.pick(&REFUSED_BYTES)),
        2 => (
            times.refused(random) | 1 << 63,
            rate(random),
            capacity(random),
        ),
        _ => (times.now(), rate(random), capacity(random)),
    };
    script.call(BUCKET_NEW, &[time, widened(random, rate, 32), capacity]);
    Run {
        times,
        rate: rate.clamp(1, RATE_LIMIT),
        packet: random.pick(&[1, 64, 1_472, 1_500, 60_000, 50_000_000]),
    }
}

fn rate(random: &mut Random) -> u64 {
    match random.below(3) {
        0 => random.pick(&RATES),
        1 => random.of_bits(29) + 1,
        _ => random.between(1, RATE_LIMIT),
    }
}

fn capacity(random: &mut Random) -> u64 {
    match random.below(3) {
        0 => random.pick(&CAPACITIES),
        1 => random.of_bits(29),
        _ => random.between(1_500, 1_000_000),
    }
}

impl Run {
    /// A call that is mostly accepted; about one in 25 is refused, by one number or two.
    fn call(&mut self, script: &mut Script, random: &mut Random) {
        let (bad_time, bad_argument) = match random.below(75) {
            0 => (true, false),
            1 => (false, true),
            2 => (true, true),
            _ => (false, false),
        };
        let time = if bad_time {
            self.times.refused(random)
        } else {
            self.next_time(random)
        };
        let bytes = if bad_argument {
            random.pick(&REFUSED_BYTES)
        } else {
            self.bytes(random)
        };
        match random.below(100) {
            0..=9 => script.call(REFILL, &[time]),
            10..=49 => script.call(TRY_CONSUME, &[time, bytes]),
            50..=64 => script.call(FORCE_CONSUME, &[time, bytes]),
            65..=89 => script.call(TIME_UNTIL_AVAILABLE, &[time, bytes]),
            90..=95 => self.set_rate(script, random, time, bad_argument),
            _ => self.set_capacity(script, random, bad_argument),
        }
    }

    /// Some times are those at which a whole number of bytes is earned, or one nanosecond beside it.
    fn next_time(&mut self, random: &mut Random) -> u64 {
        if random.percent(70) {
            return self.times.next(random);
        }
        let bytes = random.of_bits(12);
        let step = bytes * SECOND / self.rate + random.below(3);
        self.times.advance(step.saturating_sub(1))
    }

    fn bytes(&self, random: &mut Random) -> u64 {
        match random.below(4) {
            0 => random.pick(&BYTES),
            1 => random.below(self.packet + 1),
            2 => random.of_bits(29),
            _ => self.packet,
        }
    }

    fn set_rate(&mut self, script: &mut Script, random: &mut Random, time: u64, refused: bool) {
        let rate = if refused {
            random.pick(&REFUSED_RATES)
        } else {
            self.rate = rate(random);
            self.rate
        };
        script.call(SET_RATE, &[time, widened(random, rate, 32)]);
    }

    fn set_capacity(&self, script: &mut Script, random: &mut Random, refused: bool) {
        let capacity = if refused {
            random.pick(&REFUSED_BYTES)
        } else {
            capacity(random)
        };
        script.call(SET_CAPACITY, &[capacity]);
    }
}
