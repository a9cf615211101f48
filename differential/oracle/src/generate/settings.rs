//! Settings for scorers, allocators and controllers, as the calls so far leave them.

use crate::congestion::config::CongestionConfig;
use crate::generate::config::{self, *};
use crate::generate::values::*;
use crate::operation::*;
use crate::play;
use crate::random::Random;
use crate::script::Script;

const LARGEST: u64 = u32::MAX as u64;

/// Rates about which shares and decreases are rounded.
const RATES: [u64; 12] = [
    1,
    2,
    1_000,
    10_000,
    16_777_217,
    16_777_219,
    17_975_591,
    33_554_435,
    100_000_000,
    500_000_001,
    RATE_LIMIT - 1,
    RATE_LIMIT,
];

/// A few changes by which the settings are refused: 1, 2, 2, 1.
pub const REFUSED_CHANGES: [(u64, u64); 4] = [
    (DECREASE, 0),
    (MIN_RATE, 0),
    (DECAY, NAN as u64),
    (P0_SHARE, 0xbf80_0000),
];

pub struct Settings {
    config: CongestionConfig,
}

impl Settings {
    pub fn new(script: &mut Script) -> Self {
        script.call(CONFIG_NEW, &[]);
        Self {
            config: CongestionConfig::default(),
        }
    }

    pub fn set(&mut self, script: &mut Script, field: u64, value: u64) {
        script.call(CONFIG_SET, &[field, value]);
        play::config::set(&mut self.config, field, value);
    }

    pub fn config(&self) -> &CongestionConfig {
        &self.config
    }
}

/// The default settings with some changes.
pub fn settings_become(script: &mut Script, changes: &[(u64, u64)]) {
    let mut settings = Settings::new(script);
    for &(field, value) in changes {
        settings.set(script, field, value);
    }
}

/// A making that is refused by its settings, its time or both; the settings are the defaults then.
pub fn refused_new(script: &mut Script, random: &mut Random, operation: u64, time: u64) {
    let beyond = TIME_LIMIT + 1 + random.of_bits(63);
    if random.percent(30) {
        script.call(operation, &[beyond]);
        return;
    }
    let (field, value) = random.pick(&REFUSED_SETTINGS);
    script.call(CONFIG_SET, &[field, value]);
    script.call(operation, &[random.pick(&[time, beyond])]);
    script.call(CONFIG_NEW, &[]);
}

/// Thresholds, impulses, decay and waits; about half of them stay as they are.
pub fn vary_scoring(settings: &mut Settings, script: &mut Script, random: &mut Random) {
    if random.percent(15) {
        return;
    }
    if random.percent(50) {
        thresholds(settings, script, random);
    }
    let fields = [
        STABLE_WINDOW,
        COOLDOWN,
        TICK,
        DECAY,
        HYSTERESIS,
        EAGAIN_IS_HARD,
        EAGAIN_IMPULSE,
        RTT_IMPULSE,
        NACK_THRESHOLD,
        NACK_IMPULSE,
    ];
    for field in fields {
        if random.percent(45) {
            let value = scoring(random, field);
            settings.set(script, field, value);
        }
    }
}

/// That of the decrease is the higher one; a score is 100 at most.
fn thresholds(settings: &mut Settings, script: &mut Script, random: &mut Random) {
    let decrease = match random.below(4) {
        0 => random.pick(&[1, 2, 20, 61, 100, 101, 254, 255]),
        1 => random.between(1, 255),
        _ => random.between(1, 100),
    };
    let increase = match random.below(4) {
        0 => 0,
        1 => decrease - 1,
        _ => random.below(decrease),
    };
    settings.set(script, DECREASE, decrease);
    settings.set(script, INCREASE, increase);
}

/// A value that is accepted, at an end of its range too.
fn scoring(random: &mut Random, field: u64) -> u64 {
    match field {
        STABLE_WINDOW => random.pick(&[0, 0, 1, 100, 1_000, 5_000, LARGEST]),
        COOLDOWN => random.pick(&[0, 1, 99, 100, 300, 2_000, LARGEST]),
        TICK => random.pick(&[0, 1, 10, 100, 1_000, LARGEST]),
        DECAY => decay(random),
        HYSTERESIS => random.pick(&[0, 0, 1, 10, 40, 255]),
        EAGAIN_IMPULSE | RTT_IMPULSE | NACK_IMPULSE => match random.below(3) {
            0 => random.pick(&[0, 1, 60, 100, 254, 255]),
            1 => random.below(256),
            _ => random.between(1, 40),
        },
        NACK_THRESHOLD => random.pick(&[0, 0, 1, 2, 10, LARGEST]),
        _ => config::usual(random, field),
    }
}

/// From nearly 0 to nearly 1; above 0.5 a score stops short of 0.
fn decay(random: &mut Random) -> u64 {
    match random.below(4) {
        0 => random.pick(&[1, 2, bits(1e-38), bits(f32::MIN_POSITIVE)]),
        1 => random.pick(&[
            bits(0.1),
            bits(0.5),
            bits(0.5f32.next_up()),
            bits(0.6),
            bits(0.875),
            bits(0.99),
            bits(0.999_99),
            bits(1f32.next_down()),
        ]),
        2 => random.between(bits(0.5), bits(1.0) - 1),
        _ => random.between(1, bits(1.0) - 1),
    }
}

/// What P0 is kept.
pub fn vary_shares(settings: &mut Settings, script: &mut Script, random: &mut Random) {
    let tiny = f32::from_bits(1);
    let share = match random.below(6) {
        0 => random.pick(&[bits(0.0), bits(-0.0), bits(tiny), bits(1e-9)]),
        1 => random.pick(&[bits(1.0), bits(1f32.next_down()), bits(0.5)]),
        2 => random.between(0, bits(1.0)),
        3 => bits(random.unit() as f32),
        _ => bits(0.2),
    };
    let least = match random.below(5) {
        0 => random.pick(&[0, 0, 1, 999, 1_000, RATE_LIMIT - 1, RATE_LIMIT]),
        1 => rate(random),
        _ => 10_000,
    };
    settings.set(script, P0_SHARE, share);
    settings.set(script, P0_MIN, least);
}

/// The least and the largest rate, the step and the factors; many factors are 1.
pub fn vary_rates(settings: &mut Settings, script: &mut Script, random: &mut Random) {
    let (one, other) = (rate(random), rate(random));
    let (least, largest) = match random.below(6) {
        0 => (one, one),
        1 => (1, RATE_LIMIT),
        2 => (1, one),
        3 => (1, random.between(1 << 24, RATE_LIMIT - 1) | 1),
        4 => (10_000, 100_000_000),
        _ => (one.min(other), one.max(other)),
    };
    let step = match random.below(5) {
        0 => random.pick(&[0, 1, RATE_LIMIT]),
        1 => rate(random),
        _ => random.of_bits(24),
    };
    settings.set(script, MIN_RATE, least);
    settings.set(script, MAX_RATE, largest);
    settings.set(script, AI_STEP, step);
    for field in [MD_HARD, MD_SOFT] {
        let factor = match random.below(5) {
            0 | 1 => bits(1.0),
            2 => bits(1.0) - random.below(3),
            3 => random.between(1, bits(1.0)),
            _ => bits(random.between(40, 99) as f32 / 100.0),
        };
        settings.set(script, field, factor);
    }
}

/// A rate from 1 to 1,000,000,000.
pub fn rate(random: &mut Random) -> u64 {
    match random.below(4) {
        0 => random.pick(&RATES),
        1 => random.of_bits(29) + 1,
        2 => random.between(1 << 24, RATE_LIMIT - 1) | 1,
        _ => random.between(1, RATE_LIMIT),
    }
}
