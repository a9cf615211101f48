//! The settings and their checks.

use crate::congestion::config::{ConfigError, CongestionConfig, EcnMode};
use crate::line::Lines;
use crate::operation::*;
use crate::play::numeric::f32_of;
use crate::refusal;
use crate::script::Record;

pub const FIELDS: u64 = 25;

#[derive(Default)]
pub struct Config {
    config: CongestionConfig,
}

impl Config {
    pub fn settings(&self) -> &CongestionConfig {
        &self.config
    }

    pub fn play(&mut self, record: Record, lines: &mut Lines) {
        let [a, b, ..] = record.arguments;
        match record.operation {
            CONFIG_NEW if a & 1 == 1 => self.config = CongestionConfig::disabled(),
            CONFIG_NEW => self.config = CongestionConfig::default(),
            CONFIG_SET => set(&mut self.config, a % FIELDS, b),
            CONFIG_CHECK => lines.numbers(&[answer(&self.config), failed_check(&self.config)]),
            _ => {}
        }
        fields(&self.config, lines);
    }
}

/// The number by which the settings are refused, 0 where they are accepted.
pub fn answer(config: &CongestionConfig) -> u64 {
    refusal::first(&[
        (failed_check(config) != 0, refusal::VALIDATE),
        (beyond(config), refusal::SETTINGS),
    ])
}

/// Which of the seven checks of `validate` fails, 0 where none does.
fn failed_check(config: &CongestionConfig) -> u64 {
    let Err(ConfigError::InvalidRange(message)) = config.validate() else {
        return 0;
    };
    let checked = [
        "min_rate",
        "md_factor_hard",
        "md_factor_soft",
        "score_decay",
        "decrease_threshold",
        "p0_min_share",
        "repair_budget_ratio",
    ];
    match checked.iter().position(|name| message.starts_with(name)) {
        Some(place) => place as u64 + 1,
        None => panic!("an unknown check of validate: {message}"),
    }
}

/// The limits that document 01 adds.
fn beyond(config: &CongestionConfig) -> bool {
    let rates = [
        config.min_rate_bps,
        config.max_rate_bps,
        config.ai_step_bps,
        config.p0_min_bps,
    ];
    let floats = [
        config.md_factor_hard,
        config.md_factor_soft,
        config.score_decay,
        config.repair_budget_ratio,
        config.p0_min_share,
    ];
    rates.iter().any(|&rate| rate as u64 > refusal::MAX_RATE)
        || config.min_rate_bps < 1
        || floats.iter().any(|float| !float.is_finite())
        || !(1..=128).contains(&config.max_queue_p0)
        || !(1..=512).contains(&config.max_queue_p1)
        || !(1..=128).contains(&config.max_queue_p2)
}

/// The queue limits of P0, P1 and P2.
pub fn limits(config: &CongestionConfig) -> [usize; 3] {
    [
        config.max_queue_p0,
        config.max_queue_p1,
        config.max_queue_p2,
    ]
}

pub fn set(config: &mut CongestionConfig, field: u64, value: u64) {
    match field {
        0 => config.enabled = value & 1 == 1,
        1 => config.min_rate_bps = value as u32,
        2 => config.max_rate_bps = value as u32,
        3 => config.ai_step_bps = value as u32,
        4 => config.md_factor_hard = f32_of(value),
        5 => config.md_factor_soft = f32_of(value),
        6 => config.stable_window_ms = value as u32,
        7 => config.cooldown_ms = value as u32,
        8 => config.score_tick_ms = value as u32,
        9 => config.score_decay = f32_of(value),
        10 => config.decrease_threshold = value as u8,
        11 => config.increase_threshold = value as u8,
        12 => config.hysteresis_band = value as u8,
        13 => config.eagain_is_hard = value & 1 == 1,
        14 => config.eagain_impulse = value as u8,
        15 => config.rtt_impulse = value as u8,
        16 => config.nack_rate_threshold = value as u32,
        17 => config.nack_impulse = value as u8,
        18 => config.repair_budget_ratio = f32_of(value),
        19 => config.max_queue_p0 = value as usize,
        20 => config.max_queue_p1 = value as usize,
        21 => config.max_queue_p2 = value as usize,
        22 => config.p0_min_share = f32_of(value),
        23 => config.p0_min_bps = value as u32,
        _ => config.ecn_mode = mode(value % 3),
    }
}

fn mode(number: u64) -> EcnMode {
    match number {
        0 => EcnMode::Off,
        1 => EcnMode::Opportunistic,
        _ => EcnMode::Mandatory,
    }
}

fn fields(config: &CongestionConfig, lines: &mut Lines) {
    lines.number(config.enabled);
    lines.number(config.min_rate_bps);
    lines.number(config.max_rate_bps);
    lines.number(config.ai_step_bps);
    lines.f32(config.md_factor_hard);
    lines.f32(config.md_factor_soft);
    lines.number(config.stable_window_ms);
    lines.number(config.cooldown_ms);
    lines.number(config.score_tick_ms);
    lines.f32(config.score_decay);
    lines.number(config.decrease_threshold);
    lines.number(config.increase_threshold);
    lines.number(config.hysteresis_band);
    lines.number(config.eagain_is_hard);
    lines.number(config.eagain_impulse);
    lines.number(config.rtt_impulse);
    lines.number(config.nack_rate_threshold);
    lines.number(config.nack_impulse);
    lines.f32(config.repair_budget_ratio);
    lines.number(config.max_queue_p0 as u64);
    lines.number(config.max_queue_p1 as u64);
    lines.number(config.max_queue_p2 as u64);
    lines.f32(config.p0_min_share);
    lines.number(config.p0_min_bps);
    lines.number(config.ecn_mode as u64);
}
