//! The RTT estimator: samples around a mean, inflated for a while, and those that are refused.

use crate::generate::times::{at_call_limit, Times};
use crate::generate::values::*;
use crate::operation::*;
use crate::random::Random;
use crate::script::Script;

/// Samples that are accepted, at the ends of their range too.
pub fn edge_samples() -> [u64; 9] {
    [
        bits(0.0),
        bits(-0.0),
        bits(f32::from_bits(1)),
        bits(f32::MIN_POSITIVE.next_down()),
        bits(f32::MIN_POSITIVE),
        bits(1.0),
        bits(100.0),
        bits(1_000_000f32.next_down()),
        bits(1_000_000.0),
    ]
}

/// Samples that are refused.
pub fn refused_samples() -> [u64; 10] {
    [
        bits(-f32::from_bits(1)),
        bits(-1.0),
        bits(1_000_000f32.next_up()),
        bits(-1_000_000.0),
        bits(f32::MAX),
        bits(f32::INFINITY),
        bits(f32::NEG_INFINITY),
        u64::from(NAN),
        u64::from(NEGATIVE_NAN),
        u64::from(SIGNALLING_NAN),
    ]
}

/// The same cases by value and on an estimator that is lent.
pub fn boundary(script: &mut Script) {
    for update in [RTT_UPDATE, RTT_UPDATE_LENT] {
        cases(script, update);
    }
}

fn cases(script: &mut Script, update: u64) {
    // RTT 100, 200: average 112.5, variance 62.5, rto 362.5
    script.call(RTT_NEW, &[bits(100.0)]);
    script.call(update, &[0, bits(100.0)]);
    script.call(update, &[1, bits(200.0)]);
    for sample in edge_samples() {
        script.call(update, &[1, sample]);
    }
    for sample in refused_samples() {
        script.call(update, &[2, sample]);
    }
    times(script, update);
    order_of_numbers(script, update);
    at_limit(script, update);
    news(script, update);
    inflation(script, update);
    gradual_underflow(script, update);
}

fn times(script: &mut Script, update: u64) {
    let sample = bits(50.0);
    for time in [
        1,
        0,
        2,
        1,
        TIME_LIMIT - 1,
        TIME_LIMIT + 1,
        u64::MAX,
        1 << 63,
    ] {
        script.call(update, &[time, sample]);
    }
    for time in [TIME_LIMIT, TIME_LIMIT, TIME_LIMIT - 1, TIME_LIMIT + 1] {
        script.call(update, &[time, sample]);
    }
}

/// 4 before 7 before 17 before 11.
fn order_of_numbers(script: &mut Script, update: u64) {
    script.call(RTT_NEW, &[bits(1.0)]);
    script.call(update, &[10, bits(1.0)]);
    script.call(update, &[TIME_LIMIT + 1, u64::from(NAN)]);
    script.call(update, &[9, u64::from(NAN)]);
    script.call(RTT_CALLS, &[CALL_LIMIT]);
    script.call(update, &[9, u64::from(NAN)]);
    script.call(update, &[TIME_LIMIT + 1, bits(1.0)]);
    script.call(update, &[9, bits(1.0)]);
    script.call(update, &[11, bits(1.0)]);
}

fn at_limit(script: &mut Script, update: u64) {
    for calls in [CALL_LIMIT - 2, CALL_LIMIT + 1, u64::MAX, CALL_LIMIT - 1] {
        script.call(RTT_CALLS, &[calls]);
        for time in [12, 13, 14] {
            script.call(update, &[time, bits(3.0)]);
        }
    }
    script.call(RTT_CALLS, &[0]);
    script.call(update, &[20, bits(3.0)]);
}

fn news(script: &mut Script, update: u64) {
    for default in edge_samples().into_iter().chain(refused_samples()) {
        script.call(RTT_NEW, &[default]);
    }
    // the zero estimator goes on
    script.call(update, &[5, bits(0.25)]);
    script.call(update, &[6, bits(0.5)]);
    script.call(RTT_NEW, &[(1 << 32) | bits(7.0)]);
    script.call(update, &[5, (3 << 32) | bits(7.0)]);
}

/// Above twice the least; just twice is not inflated.
fn inflation(script: &mut Script, update: u64) {
    script.call(RTT_NEW, &[bits(100.0)]);
    for sample in [10.0, 90.0, 10.0, 1000.0, 20.0, 5.0, 0.0, 0.5] {
        script.call(update, &[7, bits(sample)]);
    }
    script.call(RTT_NEW, &[bits(100.0)]);
    script.call(update, &[7, bits(1.0)]);
    script.call(update, &[7, bits(9.0)]);
    script.call(update, &[7, bits(9.0)]);
}

/// Subnormal averages: an eighth of the difference is rounded before it is added.
fn gradual_underflow(script: &mut Script, update: u64) {
    script.call(RTT_NEW, &[bits(100.0)]);
    for sample in [101, 105, 90, 1, 0, 13] {
        script.call(update, &[7, sample]);
    }
}

/// Samples of one kind.
pub struct Samples {
    mean: f32,
    jitter: f32,
    kind: u64,
    inflated: bool,
}

impl Samples {
    pub fn new(random: &mut Random) -> Self {
        Self {
            mean: random.pick(&[0.05, 0.7, 5.0, 20.0, 100.0, 480.0, 30_000.0, 200_000.0]),
            jitter: random.pick(&[0.001, 0.05, 0.3, 1.0]),
            kind: random.below(14),
            inflated: false,
        }
    }

    /// The bits of a sample that is accepted.
    pub fn next(&mut self, random: &mut Random) -> u64 {
        // Inflated now and then, for a dozen samples or so.
        self.inflated = if self.inflated {
            random.below(12) != 0
        } else {
            random.below(60) == 0
        };
        match self.kind {
            0 => random.pick(&edge_samples()),
            1 => random.below(u64::from(1_000_000f32.to_bits()) + 1),
            2 => bits(random.below(1_000_001) as f32),
            3 => bits(random.of_bits(20) as f32 * 0.125),
            4 => random.of_bits(24),
            _ => bits(self.around_mean(random)),
        }
    }

    fn around_mean(&self, random: &mut Random) -> f32 {
        let swing = (random.unit() as f32 - 0.5) * self.jitter;
        let factor = if self.inflated { 3.5 } else { 1.0 };
        (self.mean * factor * (1.0 + swing)).clamp(0.0, 1_000_000.0)
    }
}

pub fn episode(script: &mut Script, random: &mut Random, length: u64) {
    let mut samples = Samples::new(random);
    make(script, random, RTT_NEW, &mut samples);
    let mut times = Times::new(random);
    for _ in 0..length {
        call(script, random, &mut times, &mut samples);
    }
    if random.percent(20) {
        at_call_limit(script, random, RTT_CALLS, |script, random| {
            call(script, random, &mut times, &mut samples)
        });
    }
}

/// A new estimator or tracker; now and then one that is refused.
pub fn make(script: &mut Script, random: &mut Random, operation: u64, samples: &mut Samples) {
    let default = match random.below(10) {
        0 => random.pick(&refused_samples()),
        1..=3 => random.pick(&edge_samples()),
        4..=6 => samples.next(random),
        _ => bits(100.0),
    };
    script.call(operation, &[widened(random, default, 32)]);
}

fn call(script: &mut Script, random: &mut Random, times: &mut Times, samples: &mut Samples) {
    let (time, sample) = time_and_sample(random, times, samples);
    let update = random.pick(&[RTT_UPDATE, RTT_UPDATE_LENT]);
    script.call(update, &[time, sample]);
}

/// Arguments that are mostly accepted; one in 25 is refused, by one number or two.
pub fn time_and_sample(
    random: &mut Random,
    times: &mut Times,
    samples: &mut Samples,
) -> (u64, u64) {
    let (bad_time, bad_sample) = match random.below(75) {
        0 => (true, false),
        1 => (false, true),
        2 => (true, true),
        _ => (false, false),
    };
    let time = if bad_time {
        times.refused(random)
    } else {
        times.next(random)
    };
    let sample = if bad_sample {
        random.pick(&refused_samples())
    } else {
        samples.next(random)
    };
    (time, widened(random, sample, 32))
}
