//! The three sides that a list is run on. Each gives a checksum of what every call answers.

use crate::clock;
use crate::congestion::budget_allocator::WriterBudgetUpdate;
use crate::congestion::config::{CongestionConfig, EcnMode, Priority};
use crate::congestion::controller::CongestionController;
use crate::congestion::ecn::EcnProcessor;
use crate::congestion::rate_controller::RateController;
use crate::congestion::rtt_estimator::RttEstimator;
use crate::congestion::scorer::CongestionAction;
use crate::measure::{mix, Sides};

use super::left::{self, bits};
use super::list::*;

extern "C" {
    fn bench_control_parts(list: *const u64, calls: usize, other: bool) -> u64;
    fn bench_control_single(list: *const u64, calls: usize, part: u8) -> u64;
    fn bench_control_whole(list: *const u64, calls: usize, other: bool) -> u64;
}

pub struct Bench;

impl Sides for Bench {
    type List = List;

    fn calls(list: &List) -> usize {
        list.words.len()
    }

    fn parts(&mut self, list: &List) -> u64 {
        let (words, calls) = (list.words.as_ptr(), list.words.len());
        // The slice goes as its start and its length.
        unsafe {
            match list.on {
                Part::Controller { other } => bench_control_parts(words, calls, other),
                Part::Single(part) => bench_control_single(words, calls, part as u8),
            }
        }
    }

    fn whole(&mut self, list: &List) -> Option<u64> {
        let (words, calls) = (list.words.as_ptr(), list.words.len());
        match list.on {
            // As in `parts`.
            Part::Controller { other } => Some(unsafe { bench_control_whole(words, calls, other) }),
            Part::Single(_) => None,
        }
    }

    fn rust(&mut self, list: &List) -> u64 {
        match list.on {
            Part::Controller { other } => controller(&list.words, other),
            Part::Single(Single::Estimator) => samples(&list.words),
            Part::Single(Single::Processor) => packets(&list.words),
            Part::Single(Single::Decreases) => decreases(&list.words),
        }
    }

    fn assert_agreed(&mut self, list: &List) {
        let rust = self.rust(list);
        assert_eq!(self.parts(list), rust, "congestion control on parts, and the Rust's");
        if let Some(whole) = self.whole(list) {
            assert_eq!(whole, rust, "a controller by value, and the Rust's");
        }
    }
}

/// The Rust's controller.
fn controller(words: &[u64], other: bool) -> u64 {
    clock::set(0);
    let mut controller = CongestionController::new(settings(other));
    let (mut time, mut sum) = (0, 0);
    for &word in words {
        time += later(word);
        clock::set(time);
        match word % 16 {
            TICK => {
                if let Some(updates) = controller.tick() {
                    sum = mix_updates(sum, &updates);
                }
                sum = mix(mix(sum, controller.current_rate().into()), bits(controller.score()));
            }
            SET_RATE => sum = mix_updates(sum, &controller.set_rate(amount(word))),
            SAMPLE => controller.on_rtt_sample(number(word), sample(word)),
            SHOW => sum = left::mix_estimator(sum, peer(&controller, number(word))),
            REGISTER => controller.register_writer(number(word).into(), class(word)),
            kind => sum = mix(sum, signalled(&mut controller, kind, word).into()),
        }
    }
    left::mix_controller(sum, &controller)
}

/// The defaults, or other settings, with marks looked at.
fn settings(other: bool) -> CongestionConfig {
    let config = CongestionConfig { ecn_mode: EcnMode::Opportunistic, ..CongestionConfig::default() };
    if !other {
        return config;
    }
    CongestionConfig {
        min_rate_bps: 20_000,
        max_rate_bps: 50_000_000,
        ai_step_bps: 70_001,
        md_factor_hard: 0.4,
        md_factor_soft: 0.7,
        stable_window_ms: 500,
        cooldown_ms: 200,
        score_tick_ms: 50,
        score_decay: 0.8,
        decrease_threshold: 50,
        increase_threshold: 15,
        hysteresis_band: 5,
        eagain_is_hard: false,
        eagain_impulse: 55,
        rtt_impulse: 25,
        nack_rate_threshold: 5,
        nack_impulse: 30,
        p0_min_share: 0.3,
        p0_min_bps: 20_000,
        ..config
    }
}

/// A signal, and whether it tells congestion.
fn signalled(controller: &mut CongestionController, kind: u64, word: u64) -> bool {
    match kind {
        TOS => return controller.on_ecn_tos(amount(word) as u8),
        EAGAIN => controller.on_eagain(),
        _ => controller.on_nacks(amount(word)),
    }
    false
}

/// The Rust's estimator.
fn samples(words: &[u64]) -> u64 {
    clock::set(0);
    let mut estimator = RttEstimator::new(100.0);
    let (mut time, mut sum) = (0, 0);
    for &word in words {
        time += later(word);
        clock::set(time);
        estimator.update(sample(word));
        sum = mix(sum, bits(estimator.rtt()));
    }
    left::mix_estimator(sum, &estimator)
}

/// The Rust's processor.
fn packets(words: &[u64]) -> u64 {
    let mut processor = EcnProcessor::default();
    let sum = words.iter().fold(0, |sum, &word| {
        let signal = processor.process_tos(amount(word) as u8);
        mix(sum, signal.into())
    });
    left::mix_processor(sum, &processor)
}

/// The rate after a decrease, which the Rust's rate controller tells.
fn decreases(words: &[u64]) -> u64 {
    words.iter().fold(0, |sum, &word| {
        let (rate, factor) = (amount(word), number(word) as f32 * 0.015625);
        let controller = RateController::with_params(rate, 10_000, 1_000_000_000, 50_000, factor, factor);
        mix(sum, controller.preview_action(CongestionAction::DecreaseHard).into())
    })
}

fn number(word: u64) -> u32 {
    (word / 16 % 64) as u32
}

fn amount(word: u64) -> u32 {
    (word / 1_024 % 1_073_741_824) as u32
}

fn class(word: u64) -> Priority {
    match word / 1_024 % 4 {
        0 => Priority::P0,
        1 => Priority::P1,
        _ => Priority::P2,
    }
}

fn sample(word: u64) -> f32 {
    (word / 1_024 % 65_536) as f32 * 0.0625
}

fn later(word: u64) -> u64 {
    word / 1_099_511_627_776 * 16
}

fn peer(controller: &CongestionController, id: u32) -> &RttEstimator {
    controller.rtt_tracker().get(id).expect("a peer that was entered")
}

fn mix_updates(sum: u64, updates: &[WriterBudgetUpdate]) -> u64 {
    updates.iter().fold(sum, |sum, update| {
        mix(mix(mix(sum, update.writer_id), update.previous_bps.into()), update.budget_bps.into())
    })
}
