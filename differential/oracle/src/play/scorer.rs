//! The scorer.

use std::time::Duration;

use crate::clock::{self, Instant};
use crate::congestion::config::CongestionConfig;
use crate::congestion::scorer::{CongestionAction, CongestionScorer};
use crate::line::{f32_bits, Lines};
use crate::operation::*;
use crate::play::config;
use crate::refusal::{self, Ledger};
use crate::script::Record;

pub struct Scorer {
    scorer: CongestionScorer,
    ledger: Ledger,
}

impl Default for Scorer {
    fn default() -> Self {
        Self::new(&CongestionConfig::default(), 0)
    }
}

impl Scorer {
    pub fn new(config: &CongestionConfig, time: u64) -> Self {
        clock::set(time);
        Self {
            scorer: CongestionScorer::from_config(config),
            ledger: Ledger::new(time),
        }
    }

    pub fn play(&mut self, record: Record, config: &CongestionConfig, lines: &mut Lines) {
        let a = record.arguments[0];
        let (answer, action) = match record.operation {
            SCORER_NEW => match made(config, a) {
                Ok(scorer) => {
                    *self = scorer;
                    (refusal::ACCEPTED, CongestionAction::None)
                }
                Err(answer) => return refused(answer, lines),
            },
            SCORER_TICK => self.tick(a),
            SCORER_CALLS => {
                self.set_calls(a);
                (refusal::ACCEPTED, CongestionAction::None)
            }
            signal => (self.signal(signal), CongestionAction::None),
        };
        lines.numbers(&[answer, number(action)]);
        lines.numbers(&score_and_state(&self.scorer));
        lines.numbers(&state(&self.scorer));
        lines.numbers(&[self.ledger.calls, self.ledger.last]);
    }

    /// A signal, by its operation.
    pub fn signal(&mut self, operation: u64) -> u64 {
        if self.ledger.used_up() {
            return refusal::CALLS;
        }
        self.ledger.count();
        match operation {
            SCORER_EAGAIN => self.scorer.on_eagain(),
            SCORER_RTT => self.scorer.on_rtt_inflated(),
            SCORER_NACK => self.scorer.on_nack(),
            _ => self.scorer.on_loss(),
        }
        refusal::ACCEPTED
    }

    /// The Rust's action; none where the call is turned down.
    pub fn tick(&mut self, time: u64) -> (u64, CongestionAction) {
        let answer = refusal::first(&[
            (time > refusal::MAX_TIME, refusal::TIME),
            (self.ledger.used_up(), refusal::CALLS),
            (self.ledger.before_last(time), refusal::EARLIER),
        ]);
        if answer != refusal::ACCEPTED {
            return (answer, CongestionAction::None);
        }
        self.ledger.count_at(time);
        clock::set(time);
        (answer, self.scorer.tick())
    }

    pub fn set_calls(&mut self, calls: u64) {
        self.ledger.calls = calls;
    }

    pub fn scorer(&self) -> &CongestionScorer {
        &self.scorer
    }
}

/// A new scorer, or the number by which it is refused.
fn made(config: &CongestionConfig, time: u64) -> Result<Scorer, u64> {
    let settings = config::answer(config);
    let answer = refusal::first(&[
        (settings != refusal::ACCEPTED, settings),
        (time > refusal::MAX_TIME, refusal::TIME),
    ]);
    match answer {
        refusal::ACCEPTED => Ok(Scorer::new(config, time)),
        _ => Err(answer),
    }
}

/// A refused making shows nothing, and the earlier scorer stays.
fn refused(answer: u64, lines: &mut Lines) {
    lines.number(answer);
    lines.numbers(&[0; 22]);
}

/// The action of a number, modulo 4.
pub fn action(number: u64) -> CongestionAction {
    match number % 4 {
        0 => CongestionAction::None,
        1 => CongestionAction::Increase,
        2 => CongestionAction::DecreaseSoft,
        _ => CongestionAction::DecreaseHard,
    }
}

fn number(action: CongestionAction) -> u64 {
    match action {
        CongestionAction::None => 0,
        CongestionAction::Increase => 1,
        CongestionAction::DecreaseSoft => 2,
        CongestionAction::DecreaseHard => 3,
    }
}

pub fn score_and_state(scorer: &CongestionScorer) -> [u64; 2] {
    [f32_bits(scorer.score()).into(), scorer.state() as u64]
}

/// The times, the pending signals and the metrics, in the Rust's order.
pub fn state(scorer: &CongestionScorer) -> [u64; 17] {
    let (pending, metrics) = (scorer.pending(), scorer.metrics());
    let [cooldown_kind, cooldown_until] = optional(scorer.cooldown_until());
    let [stable_kind, stable_since] = optional(scorer.stable_since());
    [
        scorer.last_tick().nanoseconds(),
        cooldown_kind,
        cooldown_until,
        stable_kind,
        stable_since,
        pending.eagain_count.into(),
        pending.rtt_inflated.into(),
        pending.nack_count.into(),
        pending.loss_count.into(),
        metrics.ticks,
        metrics.congestion_events,
        metrics.recovery_events,
        metrics.eagain_signals,
        metrics.rtt_signals,
        metrics.nack_signals,
        f32_bits(metrics.peak_score).into(),
        nanoseconds(metrics.congested_duration),
    ]
}

/// Kind (0 none, 1 a time) and time.
fn optional(time: Option<Instant>) -> [u64; 2] {
    match time {
        None => [0, 0],
        Some(time) => [1, time.nanoseconds()],
    }
}

/// Those of the port stop at the largest u64; the Rust's go on.
fn nanoseconds(duration: Duration) -> u64 {
    u64::try_from(duration.as_nanos()).unwrap_or(u64::MAX)
}
