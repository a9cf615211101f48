//! The settings: from the defaults or from `disabled`, some fields are changed and all is checked.

use crate::generate::values::*;
use crate::operation::*;
use crate::random::Random;
use crate::script::Script;

/// The settings' fields, in the order of a line.
pub const FIELD_NAMES: [&str; 25] = [
    "enabled",
    "min_rate_bps",
    "max_rate_bps",
    "ai_step_bps",
    "md_factor_hard",
    "md_factor_soft",
    "stable_window_ms",
    "cooldown_ms",
    "score_tick_ms",
    "score_decay",
    "decrease_threshold",
    "increase_threshold",
    "hysteresis_band",
    "eagain_is_hard",
    "eagain_impulse",
    "rtt_impulse",
    "nack_rate_threshold",
    "nack_impulse",
    "repair_budget_ratio",
    "max_queue_p0",
    "max_queue_p1",
    "max_queue_p2",
    "p0_min_share",
    "p0_min_bps",
    "ecn_mode",
];

pub const ENABLED: u64 = 0;
pub const MIN_RATE: u64 = 1;
pub const MAX_RATE: u64 = 2;
pub const AI_STEP: u64 = 3;
pub const MD_HARD: u64 = 4;
pub const MD_SOFT: u64 = 5;
pub const STABLE_WINDOW: u64 = 6;
pub const COOLDOWN: u64 = 7;
pub const TICK: u64 = 8;
pub const DECAY: u64 = 9;
pub const DECREASE: u64 = 10;
pub const INCREASE: u64 = 11;
pub const HYSTERESIS: u64 = 12;
pub const EAGAIN_IS_HARD: u64 = 13;
pub const EAGAIN_IMPULSE: u64 = 14;
pub const RTT_IMPULSE: u64 = 15;
pub const NACK_THRESHOLD: u64 = 16;
pub const NACK_IMPULSE: u64 = 17;
pub const REPAIR_RATIO: u64 = 18;
pub const QUEUE_P0: u64 = 19;
pub const QUEUE_P1: u64 = 20;
pub const QUEUE_P2: u64 = 21;
pub const P0_SHARE: u64 = 22;
pub const P0_MIN: u64 = 23;
pub const ECN_MODE: u64 = 24;

/// Settings of which each is refused, whatever the others are.
pub const REFUSED_SETTINGS: [(u64, u64); 18] = [
    (MIN_RATE, 0),
    (MAX_RATE, 0),
    (MAX_RATE, RATE_LIMIT + 1),
    (AI_STEP, RATE_LIMIT + 1),
    (P0_MIN, RATE_LIMIT + 1),
    (MD_HARD, 0),
    (MD_HARD, NAN as u64),
    (DECAY, NAN as u64),
    (DECAY, 0),
    (DECREASE, 0),
    (REPAIR_RATIO, 0x7f80_0000),
    (P0_SHARE, 0xbf80_0000),
    (QUEUE_P0, 0),
    (QUEUE_P0, 129),
    (QUEUE_P1, 513),
    (QUEUE_P1, 0),
    (QUEUE_P2, 129),
    (QUEUE_P2, 1 << 32),
];

/// The fields that are f32.
pub fn is_float(field: u64) -> bool {
    matches!(field, MD_HARD | MD_SOFT | DECAY | REPAIR_RATIO | P0_SHARE)
}

pub fn boundary(script: &mut Script) {
    for disabled in [0, 1, 2, 3] {
        script.call(CONFIG_NEW, &[disabled]);
        script.call(CONFIG_CHECK, &[]);
    }
    script.call(CONFIG_NEW, &[]);
    for (field, value) in accepted_edges() {
        script.call(CONFIG_SET, &[field, value]);
        script.call(CONFIG_CHECK, &[]);
    }
    for (field, value) in refused_edges() {
        case(script, &[(field, value)]);
    }
    for changes in several() {
        case(script, &changes);
    }
}

/// Changes to the defaults, and the check.
fn case(script: &mut Script, changes: &[(u64, u64)]) {
    script.call(CONFIG_NEW, &[]);
    for &(field, value) in changes {
        script.call(CONFIG_SET, &[field, value]);
    }
    script.call(CONFIG_CHECK, &[]);
}

/// Values at an end of their range; one after the other they leave the settings accepted.
fn accepted_edges() -> Vec<(u64, u64)> {
    vec![
        (MIN_RATE, 1),
        (MIN_RATE, 100_000_000),
        (MAX_RATE, RATE_LIMIT),
        (MIN_RATE, RATE_LIMIT),
        (AI_STEP, 0),
        (AI_STEP, RATE_LIMIT),
        (P0_MIN, 0),
        (P0_MIN, RATE_LIMIT),
        (MD_HARD, 1),
        (MD_HARD, bits(1.0)),
        (MD_SOFT, 1),
        (MD_SOFT, bits(1.0)),
        (DECAY, 1),
        (DECAY, bits(1f32.next_down())),
        (INCREASE, 59),
        (DECREASE, 255),
        (INCREASE, 254),
        (P0_SHARE, bits(-0.0)),
        (P0_SHARE, bits(1.0)),
        (REPAIR_RATIO, bits(0.0)),
        (REPAIR_RATIO, bits(1.0)),
        (QUEUE_P0, 1),
        (QUEUE_P0, 128),
        (QUEUE_P1, 1),
        (QUEUE_P1, 512),
        (QUEUE_P2, 1),
        (QUEUE_P2, 128),
        // a flag is its last bit, a mode is taken modulo 3, a u8 modulo 256, a field's number modulo 25
        (0, 2),
        (0, u64::MAX),
        (13, 2),
        (24, 1),
        (24, 2),
        (24, 3),
        (24, 256),
        (24, u64::MAX),
        (12, 255),
        (14, 256),
        (15, 257),
        (17, u64::MAX),
        (6, u32::MAX as u64),
        (7, 1 << 32),
        (8, 0),
        (16, u64::MAX),
        (25, 0),
        (49, 5),
        (u64::MAX, 7),
        (MIN_RATE, (1 << 32) + 1),
    ]
}

/// Values one past an end of their range, NaN and infinities.
fn refused_edges() -> Vec<(u64, u64)> {
    let mut edges = vec![
        (MIN_RATE, 0),
        (MIN_RATE, 100_000_001),
        (MIN_RATE, u32::MAX as u64),
        (MIN_RATE, 1 << 32),
        (MAX_RATE, 9_999),
        (MAX_RATE, 0),
        (MAX_RATE, RATE_LIMIT + 1),
        (MAX_RATE, u32::MAX as u64),
        (AI_STEP, RATE_LIMIT + 1),
        (P0_MIN, RATE_LIMIT + 1),
        (P0_MIN, u32::MAX as u64),
        (DECREASE, 20),
        (DECREASE, 256),
        (INCREASE, 60),
        (INCREASE, 255),
        (QUEUE_P0, 0),
        (QUEUE_P0, 129),
        (QUEUE_P0, u64::MAX),
        (QUEUE_P1, 0),
        (QUEUE_P1, 513),
        (QUEUE_P1, (1 << 32) + 1),
        (QUEUE_P2, 0),
        (QUEUE_P2, 129),
        (QUEUE_P2, (1 << 16) + 1),
    ];
    for field in [MD_HARD, MD_SOFT, DECAY, P0_SHARE, REPAIR_RATIO] {
        let above = if field == DECAY { 1.0 } else { 1f32.next_up() };
        let below = if matches!(field, P0_SHARE | REPAIR_RATIO) {
            -f32::from_bits(1)
        } else {
            0.0
        };
        edges.push((field, bits(above)));
        edges.push((field, bits(below)));
        edges.push((field, u64::from(NAN)));
    }
    edges.extend([
        (MD_HARD, bits(-0.0)),
        (MD_HARD, u64::from(NEGATIVE_NAN)),
        (MD_HARD, bits(f32::INFINITY)),
        (DECAY, bits(f32::NEG_INFINITY)),
        (P0_SHARE, u64::from(SIGNALLING_NAN)),
    ]);
    edges
}

/// Several things are wrong: the first check that fails is told, and 1 before 2.
fn several() -> Vec<Vec<(u64, u64)>> {
    let nan = u64::from(NAN);
    vec![
        vec![(MIN_RATE, 100_000_001), (MD_HARD, 0)],
        vec![(MD_HARD, 0), (MD_SOFT, 0)],
        vec![(MD_SOFT, 0), (DECAY, 0)],
        vec![(DECAY, 0), (DECREASE, 0)],
        vec![(DECREASE, 0), (P0_SHARE, bits(2.0))],
        vec![(P0_SHARE, bits(2.0)), (REPAIR_RATIO, bits(2.0))],
        vec![(MD_HARD, nan), (REPAIR_RATIO, bits(-1.0))],
        vec![(QUEUE_P1, 513), (DECAY, bits(1.0))],
        vec![(MIN_RATE, RATE_LIMIT + 1), (MAX_RATE, RATE_LIMIT + 2)],
    ]
}

/// Starts anew or goes on, changes at most four fields, checks; until about `length` calls are made.
pub fn episode(script: &mut Script, random: &mut Random, length: u64) {
    let end = script.len() + length as usize;
    while script.len() < end {
        if random.percent(80) {
            script.call(CONFIG_NEW, &[u64::from(random.percent(30))]);
        }
        for _ in 0..random.pick(&[0, 1, 1, 1, 2, 2, 2, 3, 3, 4]) {
            change(script, random);
        }
        script.call(CONFIG_CHECK, &[]);
    }
}

fn change(script: &mut Script, random: &mut Random) {
    let field = random.below(25);
    let value = if random.percent(55) {
        usual(random, field)
    } else {
        edge(random, field)
    };
    let turns = if random.percent(3) {
        random.below(1 << 50)
    } else {
        0
    };
    script.call(CONFIG_SET, &[field + 25 * turns, value]);
}

/// A value that the defaults' other fields mostly accept.
pub fn usual(random: &mut Random, field: u64) -> u64 {
    match field {
        0 | 13 => random.below(2),
        MIN_RATE => random.between(1, 100_000_000),
        MAX_RATE => random.between(10_000, RATE_LIMIT),
        AI_STEP | P0_MIN => random.between(0, RATE_LIMIT),
        MD_HARD | MD_SOFT | DECAY | REPAIR_RATIO | P0_SHARE => bits(random.unit() as f32),
        6 | 7 | 8 | 16 => random.of_bits(32),
        DECREASE => random.between(21, 255),
        INCREASE => random.below(60),
        12 | 14 | 15 | 17 => random.below(256),
        QUEUE_P0 | QUEUE_P2 => random.between(1, 128),
        QUEUE_P1 => random.between(1, 512),
        _ => random.below(3),
    }
}

/// A value at or past an end, or any at all.
fn edge(random: &mut Random, field: u64) -> u64 {
    if is_float(field) {
        let value = float_edge(random);
        return widened(random, value, 32);
    }
    match field {
        0 | 13 | 24 => random.word(),
        MIN_RATE | MAX_RATE | AI_STEP | P0_MIN => {
            let value = rate_edge(random);
            widened(random, value, 32)
        }
        6 | 7 | 8 | 16 => {
            let value = u32_value(random);
            widened(random, value, 32)
        }
        QUEUE_P0 | QUEUE_P1 | QUEUE_P2 => queue_edge(random),
        _ => {
            let value = random.pick(&[0, 1, 19, 20, 21, 59, 60, 61, 128, 254, 255]);
            widened(random, value, 8)
        }
    }
}

fn float_edge(random: &mut Random) -> u64 {
    match random.below(4) {
        0 => f32_value(random),
        1 => random.near(bits(1.0)),
        2 => random.below(4) | random.below(2) << 31,
        _ => random.pick(&f32s()),
    }
}

fn rate_edge(random: &mut Random) -> u64 {
    match random.below(4) {
        0 => random.near(RATE_LIMIT),
        1 => {
            let default = random.pick(&[10_000, 50_000, 100_000_000]);
            random.near(default)
        }
        2 => random.below(4),
        _ => u32_value(random),
    }
}

fn queue_edge(random: &mut Random) -> u64 {
    match random.below(3) {
        0 => random.pick(&[0, 1, 2, 127, 128, 129, 511, 512, 513]),
        1 => random.below(600),
        _ => random.pick(&[1 << 16, 1 << 32, (1 << 32) + 1, u64::MAX]),
    }
}
