//! The rate controller: rates that no f32 is equal to, factors up to 1, ceilings, floors and refusals.

use crate::generate::times::{at_call_limit, Times};
use crate::generate::values::*;
use crate::operation::*;
use crate::random::Random;
use crate::script::Script;

const NONE: u64 = 0;
const INCREASE: u64 = 1;
const SOFT: u64 = 2;
const HARD: u64 = 3;

/// From 16,777,217 on some have no f32 of their own.
pub const RATES: [u64; 26] = [
    1,
    2,
    3,
    9_999,
    10_000,
    10_001,
    50_000,
    16_777_214,
    16_777_215,
    16_777_216,
    16_777_217,
    16_777_218,
    16_777_219,
    16_777_220,
    16_777_221,
    16_777_223,
    33_554_431,
    33_554_433,
    33_554_435,
    33_554_438,
    67_108_869,
    100_000_000,
    536_870_945,
    999_999_967,
    RATE_LIMIT - 1,
    RATE_LIMIT,
];
const STEPS: [u64; 8] = [
    0,
    1,
    2,
    50_000,
    16_777_217,
    333_333_333,
    RATE_LIMIT - 1,
    RATE_LIMIT,
];
const REFUSED_RATES: [u64; 3] = [RATE_LIMIT + 1, 1 << 31, u32::MAX as u64];

/// Factors that are accepted, at the ends of their range too.
pub fn factors() -> [u64; 10] {
    [
        bits(f32::from_bits(1)),
        bits(1e-38),
        bits(f32::MIN_POSITIVE),
        bits(1e-9),
        bits(0.3),
        bits(0.5),
        bits(0.8),
        bits(0.999_999_9),
        bits(1f32.next_down()),
        bits(1.0),
    ]
}

/// Factors that are refused.
pub fn refused_factors() -> [u64; 9] {
    [
        bits(0.0),
        bits(-0.0),
        bits(-f32::from_bits(1)),
        bits(-0.5),
        bits(1f32.next_up()),
        bits(f32::INFINITY),
        bits(f32::NEG_INFINITY),
        u64::from(NAN),
        u64::from(NEGATIVE_NAN),
    ]
}

/// What a rate controller is made with; the factors are bits.
#[derive(Clone, Copy)]
struct Parameters {
    initial: u64,
    least: u64,
    largest: u64,
    step: u64,
    hard: u64,
    soft: u64,
}

/// Those of the default settings.
fn usual() -> Parameters {
    Parameters {
        initial: 100_000_000,
        least: 10_000,
        largest: 100_000_000,
        step: 50_000,
        hard: bits(0.5),
        soft: bits(0.8),
    }
}

/// Every rate is allowed.
fn wide() -> Parameters {
    Parameters {
        initial: RATE_LIMIT,
        least: 1,
        largest: RATE_LIMIT,
        ..usual()
    }
}

fn new(script: &mut Script, time: u64, parameters: Parameters) {
    let halves = |low, high| low | high << 32;
    let rates = halves(parameters.initial, parameters.least);
    let largest_and_step = halves(parameters.largest, parameters.step);
    let factors = halves(parameters.hard, parameters.soft);
    script.call(RATE_NEW, &[time, rates, largest_and_step, factors]);
}

fn apply(script: &mut Script, time: u64, actions: &[u64]) {
    for &action in actions {
        script.call(RATE_APPLY, &[time, action]);
    }
}

pub fn boundary(script: &mut Script) {
    before_any_new(script);
    factor_one(script);
    roundings(script);
    ends(script);
    initial_rates(script);
    to_the_ceiling(script);
    to_the_floor(script);
    wide_arguments(script);
    order_of_numbers(script);
    at_limit(script);
    times(script);
    news(script);
}

/// Initial, least and largest rate 1, step 0, factors 1.
fn before_any_new(script: &mut Script) {
    apply(script, 0, &[NONE, INCREASE, SOFT, HARD]);
    for rate in [0, 1, 2] {
        script.call(RATE_SET, &[1, rate]);
    }
}

/// At factor 1, 16,777,219 rounds to 16,777,220 and stays, and no change is told; 16,777,217 falls to 16,777,216.
pub fn factor_one(script: &mut Script) {
    let parameters = Parameters {
        initial: 16_777_219,
        hard: bits(1.0),
        soft: bits(1.0),
        ..wide()
    };
    new(script, 0, parameters);
    apply(script, 1, &[HARD, SOFT]);
    for rate in [16_777_217, 16_777_218, 16_777_221, 16_777_223] {
        script.call(RATE_SET, &[2, rate]);
        apply(script, 2, &[HARD, SOFT]);
    }
    for rate in [33_554_434, 33_554_435, 33_554_438, 999_999_999] {
        script.call(RATE_SET, &[3, rate]);
        apply(script, 3, &[SOFT, HARD]);
    }
}

/// A rate is rounded to an f32, and its product with the factor too, before it is cut.
fn roundings(script: &mut Script) {
    let below_one = bits(1f32.next_down());
    let pairs = [
        (below_one, bits(1.0)),
        (bits(0.8), bits(0.5)),
        (bits(0.3), bits(0.999_999_9)),
        (1, bits(1e-38)),
    ];
    let rates = [
        1,
        9_999,
        16_777_215,
        16_777_217,
        16_777_219,
        16_777_221,
        RATE_LIMIT - 1,
        RATE_LIMIT,
    ];
    for (hard, soft) in pairs {
        new(
            script,
            0,
            Parameters {
                hard,
                soft,
                ..wide()
            },
        );
        for rate in rates {
            script.call(RATE_SET, &[rate, rate]);
            apply(script, rate, &[HARD, SOFT]);
        }
    }
}

/// The least and the largest are one rate.
fn ends(script: &mut Script) {
    for rate in [1, 10_000, 16_777_219, RATE_LIMIT] {
        new(
            script,
            0,
            Parameters {
                initial: 5,
                least: rate,
                largest: rate,
                step: 7,
                ..usual()
            },
        );
        apply(script, 1, &[INCREASE, SOFT, HARD, NONE]);
        script.call(RATE_SET, &[2, rate - 1]);
    }
}

/// Held to the least and the largest.
fn initial_rates(script: &mut Script) {
    for initial in [0, 9_999, 10_000, 10_001, 100_000_001, RATE_LIMIT] {
        new(script, 9, Parameters { initial, ..usual() });
    }
    for rate in [0, 9_999, 10_000, 10_001, 100_000_000, 100_000_001] {
        script.call(RATE_SET, &[10, rate]);
    }
    script.call(RATE_SET, &[11, RATE_LIMIT]);
}

fn to_the_ceiling(script: &mut Script) {
    for (step, largest) in [(0, 10), (3, 10), (1, 2), (RATE_LIMIT, RATE_LIMIT)] {
        new(
            script,
            0,
            Parameters {
                initial: 1,
                largest,
                step,
                ..wide()
            },
        );
        apply(script, 5, &[INCREASE; 5]);
    }
}

fn to_the_floor(script: &mut Script) {
    new(
        script,
        0,
        Parameters {
            initial: 1_000,
            least: 3,
            ..wide()
        },
    );
    apply(script, 4, &[SOFT, HARD, HARD, SOFT, HARD, HARD, SOFT, HARD]);
    apply(script, 5, &[SOFT; 4]);
    apply(script, 6, &[INCREASE, HARD, NONE, SOFT]);
    new(script, 0, Parameters { hard: 1, ..wide() });
    apply(script, 7, &[HARD, HARD]);
}

/// An action is taken modulo 4, a rate modulo 2^32.
fn wide_arguments(script: &mut Script) {
    new(script, 0, usual());
    apply(script, 1, &[7, 4, 5, 6, 1 << 32, u64::MAX, u64::MAX - 2]);
    script.call(RATE_SET, &[1, (1 << 32) + 20_000]);
    script.call(RATE_SET, &[1, u64::MAX]);
}

/// 6, 7, 17, 11; nothing moves.
fn order_of_numbers(script: &mut Script) {
    new(script, 10, usual());
    let calls = |script: &mut Script| {
        for time in [TIME_LIMIT + 1, 9] {
            script.call(RATE_SET, &[time, RATE_LIMIT + 1]);
            script.call(RATE_SET, &[time, 20_000]);
            script.call(RATE_APPLY, &[time, HARD]);
            script.call(RATE_APPLY, &[time, NONE]);
        }
    };
    calls(script);
    for rate in REFUSED_RATES {
        script.call(RATE_SET, &[10, rate]);
    }
    script.call(RATE_CALLS, &[CALL_LIMIT]);
    calls(script);
    script.call(RATE_SET, &[10, RATE_LIMIT + 1]);
    script.call(RATE_SET, &[10, 20_000]);
    script.call(RATE_APPLY, &[10, HARD]);
}

fn at_limit(script: &mut Script) {
    for calls in [CALL_LIMIT - 2, CALL_LIMIT + 1, u64::MAX, CALL_LIMIT - 1] {
        script.call(RATE_CALLS, &[calls]);
        script.call(RATE_APPLY, &[11, SOFT]);
        script.call(RATE_SET, &[11, 90_000]);
        script.call(RATE_APPLY, &[11, INCREASE]);
    }
    // a call that changes nothing counts too
    script.call(RATE_CALLS, &[CALL_LIMIT - 1]);
    apply(script, 12, &[NONE, NONE]);
    script.call(RATE_CALLS, &[0]);
    script.call(RATE_APPLY, &[12, HARD]);
}

fn times(script: &mut Script) {
    new(script, TIME_LIMIT - 1, usual());
    for time in [TIME_LIMIT - 2, TIME_LIMIT + 1, TIME_LIMIT, TIME_LIMIT - 1] {
        script.call(RATE_APPLY, &[time, SOFT]);
        script.call(RATE_SET, &[time, 70_000]);
    }
    apply(script, u64::MAX, &[HARD]);
    // a new one may be older than the last one
    new(script, 3, usual());
    apply(script, 3, &[HARD]);
}

/// 2, 6, 7; after a refused one the earlier goes on.
fn news(script: &mut Script) {
    for factor in refused_factors() {
        new(
            script,
            4,
            Parameters {
                hard: factor,
                ..usual()
            },
        );
        new(
            script,
            4,
            Parameters {
                soft: factor,
                least: 0,
                ..usual()
            },
        );
    }
    for time in [4, TIME_LIMIT + 1] {
        for parameters in beyond() {
            new(script, time, parameters);
        }
        let hard = 0;
        new(script, time, Parameters { hard, ..usual() });
    }
    new(script, TIME_LIMIT + 1, usual());
    new(script, u64::MAX, usual());
    apply(script, 4, &[INCREASE, HARD]);
    for factor in factors() {
        new(
            script,
            TIME_LIMIT,
            Parameters {
                hard: factor,
                soft: factor,
                ..usual()
            },
        );
        apply(script, TIME_LIMIT, &[SOFT]);
    }
}

/// Parameters whose rates are refused.
fn beyond() -> [Parameters; 7] {
    let above = RATE_LIMIT + 1;
    let largest = |largest| Parameters { largest, ..wide() };
    [
        Parameters { least: 0, ..wide() },
        Parameters {
            initial: above,
            ..wide()
        },
        Parameters {
            least: above,
            ..largest(above)
        },
        largest(above),
        Parameters {
            step: above,
            ..wide()
        },
        Parameters {
            least: 10_001,
            ..largest(10_000)
        },
        Parameters {
            least: 0,
            ..largest(0)
        },
    ]
}

/// A rate controller's time and what is done with it, in parts of 100.
struct Run {
    times: Times,
    set_rates: u64,
    increases: u64,
    hard: u64,
}

pub fn episode(script: &mut Script, random: &mut Random, length: u64) {
    let mut run = make(script, random);
    for _ in 0..length {
        run.call(script, random);
    }
    if random.percent(20) {
        at_call_limit(script, random, RATE_CALLS, |script, random| {
            run.usual_call(script, random)
        });
    }
}

fn make(script: &mut Script, random: &mut Random) -> Run {
    let times = Times::new(random);
    new(script, times.now(), parameters(random));
    Run {
        times,
        set_rates: random.pick(&[3, 20, 40, 60]),
        increases: random.pick(&[0, 10, 30, 90]),
        hard: random.pick(&[0, 50, 100]),
    }
}

/// Parameters that are accepted.
fn parameters(random: &mut Random) -> Parameters {
    let (one, other) = (rate(random), rate(random));
    let (least, largest) = match random.below(8) {
        0 => (one, one),
        1..=3 => (1, RATE_LIMIT),
        4 => (1, one),
        5 => (one, RATE_LIMIT),
        _ => (one.min(other), one.max(other)),
    };
    Parameters {
        initial: if random.percent(5) { 0 } else { rate(random) },
        least,
        largest,
        step: step(random),
        hard: factor(random),
        soft: factor(random),
    }
}

/// From 2^24 on mostly odd.
fn rate(random: &mut Random) -> u64 {
    match random.below(5) {
        0 => random.pick(&RATES),
        1 => random.of_bits(29) + 1,
        2 => random.between(1, RATE_LIMIT),
        3 => random.between(1 << 24, 1 << 25) | 1,
        _ => random.between(1 << 24, RATE_LIMIT - 1) | 1,
    }
}

fn step(random: &mut Random) -> u64 {
    match random.below(4) {
        0 => random.pick(&STEPS),
        1 => rate(random),
        _ => random.of_bits(26),
    }
}

fn factor(random: &mut Random) -> u64 {
    match random.below(7) {
        0 | 1 => bits(1.0),
        2 => random.pick(&factors()),
        3 => bits(1.0) - random.below(4),
        4 => random.between(1, bits(1.0)),
        5 => bits(random.between(90, 99) as f32 / 100.0),
        _ => bits((random.unit() as f32).max(f32::MIN_POSITIVE)),
    }
}

impl Run {
    /// About one call in 25 is refused, by one number or two; now and then all starts anew.
    fn call(&mut self, script: &mut Script, random: &mut Random) {
        match random.below(150) {
            0 => self.refused_new(script, random),
            1 | 2 => *self = make(script, random),
            _ => self.usual_call(script, random),
        }
    }

    fn usual_call(&mut self, script: &mut Script, random: &mut Random) {
        let (bad_time, bad_rate) = match random.below(75) {
            0 | 1 => (true, false),
            2 => (false, true),
            3 => (true, true),
            _ => (false, false),
        };
        let time = if bad_time {
            self.times.refused(random)
        } else {
            self.times.next(random)
        };
        if bad_rate || random.percent(self.set_rates) {
            self.set_rate(script, random, time, bad_rate);
        } else {
            self.apply(script, random, time);
        }
    }

    fn set_rate(&self, script: &mut Script, random: &mut Random, time: u64, refused: bool) {
        let rate = match random.below(12) {
            _ if refused => random.pick(&REFUSED_RATES),
            0 => 0,
            _ => rate(random),
        };
        script.call(RATE_SET, &[time, widened(random, rate, 32)]);
    }

    fn apply(&self, script: &mut Script, random: &mut Random, time: u64) {
        let action = if random.percent(3) {
            NONE
        } else if random.percent(self.increases) {
            INCREASE
        } else if random.percent(self.hard) {
            HARD
        } else {
            SOFT
        };
        script.call(RATE_APPLY, &[time, widened(random, action, 2)]);
    }

    /// By its factors, its rates, its time or several of them; the rate controller stays.
    fn refused_new(&self, script: &mut Script, random: &mut Random) {
        let mut parameters = parameters(random);
        let mut time = self.times.now();
        let faults = random.between(1, 7);
        if faults & 1 != 0 {
            parameters = random.pick(&beyond());
        }
        if faults & 2 != 0 {
            let factor = random.pick(&refused_factors());
            match random.below(3) {
                0 => parameters.hard = factor,
                1 => parameters.soft = factor,
                _ => (parameters.hard, parameters.soft) = (factor, factor),
            }
        }
        if faults & 4 != 0 {
            time = TIME_LIMIT + 1 + random.of_bits(63);
        }
        new(script, time, parameters);
    }
}
