//! The RTT estimator.

use crate::clock;
use crate::congestion::rtt_estimator::RttEstimator;
use crate::line::{f32_bits, Lines};
use crate::operation::*;
use crate::play::numeric::f32_of;
use crate::refusal::{self, Ledger};
use crate::script::Record;

pub struct Rtt {
    estimator: RttEstimator,
    ledger: Ledger,
}

impl Default for Rtt {
    fn default() -> Self {
        Self::new(100.0)
    }
}

impl Rtt {
    fn new(default_ms: f32) -> Self {
        Self {
            estimator: RttEstimator::new(default_ms),
            ledger: Ledger::default(),
        }
    }

    pub fn play(&mut self, record: Record, lines: &mut Lines) {
        let [a, b, ..] = record.arguments;
        let answer = match record.operation {
            RTT_NEW => self.make(f32_of(a)),
            // the Rust's one update, which takes &mut self
            RTT_UPDATE | RTT_UPDATE_LENT => self.update(a, f32_of(b)),
            _ => {
                self.ledger.calls = a;
                refusal::ACCEPTED
            }
        };
        lines.number(answer);
        lines.numbers(&state(&self.estimator));
        lines.f32(self.estimator.rto());
        lines.number(self.estimator.is_inflated());
        lines.numbers(&[self.ledger.calls, self.ledger.last]);
    }

    /// A refused default leaves the zero estimator.
    fn make(&mut self, default_ms: f32) -> u64 {
        let answer = refusal::first(&[(refusal::rtt_beyond(default_ms), refusal::RTT)]);
        *self = Self::new(if answer == 0 { default_ms } else { 0.0 });
        answer
    }

    fn update(&mut self, time: u64, sample_ms: f32) -> u64 {
        let answer = refusal::first(&[
            (refusal::rtt_beyond(sample_ms), refusal::RTT),
            (time > refusal::MAX_TIME, refusal::TIME),
            (self.ledger.used_up(), refusal::CALLS),
            (self.ledger.before_last(time), refusal::EARLIER),
        ]);
        if answer == refusal::ACCEPTED {
            self.ledger.count_at(time);
            clock::set(time);
            self.estimator.update(sample_ms);
        }
        answer
    }
}

/// rtt, min, var, samples, kind and time of the last sample.
pub fn state(estimator: &RttEstimator) -> [u64; 6] {
    let (kind, time) = match estimator.last_sample() {
        None => (0, 0),
        Some(time) => (1, time.nanoseconds()),
    };
    [
        f32_bits(estimator.rtt()).into(),
        f32_bits(estimator.baseline()).into(),
        f32_bits(estimator.variance()).into(),
        estimator.samples(),
        kind,
        time,
    ]
}
