//! The rate controller.

use crate::clock;
use crate::congestion::rate_controller::RateController;
use crate::congestion::scorer::CongestionAction;
use crate::line::Lines;
use crate::operation::*;
use crate::overflow;
use crate::play::numeric::f32_of;
use crate::play::scorer::action;
use crate::refusal::{self, Ledger};
use crate::script::Record;

/// What a rate controller is made with.
#[derive(Clone, Copy)]
struct Parameters {
    initial: u32,
    least: u32,
    largest: u32,
    step: u32,
    hard: f32,
    soft: f32,
}

impl Parameters {
    /// Each word has two, the low half first.
    fn of([rates, largest_and_step, factors]: [u64; 3]) -> Self {
        Self {
            initial: rates as u32,
            least: (rates >> 32) as u32,
            largest: largest_and_step as u32,
            step: (largest_and_step >> 32) as u32,
            hard: f32_of(factors),
            soft: f32_of(factors >> 32),
        }
    }

    fn factor_beyond(&self) -> bool {
        let allowed = |factor| factor > 0.0 && factor <= 1.0;
        !allowed(self.hard) || !allowed(self.soft)
    }

    fn rate_beyond(&self) -> bool {
        let rates = [self.initial, self.least, self.largest, self.step];
        self.least < 1 || self.least > self.largest || rates.into_iter().any(rate_beyond)
    }
}

pub struct Rate {
    controller: RateController,
    ledger: Ledger,
}

impl Default for Rate {
    fn default() -> Self {
        let parameters = Parameters {
            initial: 1,
            least: 1,
            largest: 1,
            step: 0,
            hard: 1.0,
            soft: 1.0,
        };
        Self::new(0, parameters)
    }
}

impl Rate {
    fn new(time: u64, parameters: Parameters) -> Self {
        clock::set(time);
        Self {
            controller: RateController::with_params(
                parameters.initial,
                parameters.least,
                parameters.largest,
                parameters.step,
                parameters.hard,
                parameters.soft,
            ),
            ledger: Ledger::new(time),
        }
    }

    pub fn play(&mut self, record: Record, lines: &mut Lines) {
        let [a, b, c, d, _] = record.arguments;
        let (answer, changed) = match record.operation {
            RATE_NEW => match made(a, Parameters::of([b, c, d])) {
                Ok(rate) => {
                    *self = rate;
                    (refusal::ACCEPTED, false)
                }
                Err(answer) => return refused(answer, lines),
            },
            RATE_APPLY => self.apply_action(a, action(b)),
            RATE_SET => (self.set_rate(a, b as u32), false),
            _ => {
                self.ledger.calls = a;
                (refusal::ACCEPTED, false)
            }
        };
        lines.number(answer);
        lines.number(changed);
        self.state(lines);
    }

    /// The answer, and whether the rate changed.
    fn apply_action(&mut self, time: u64, action: CongestionAction) -> (u64, bool) {
        let answer = refusal::first(&[
            (time > refusal::MAX_TIME, refusal::TIME),
            (self.ledger.used_up(), refusal::CALLS),
            (self.ledger.before_last(time), refusal::EARLIER),
        ]);
        if answer != refusal::ACCEPTED {
            return (answer, false);
        }
        self.ledger.count_at(time);
        clock::set(time);
        (answer, apply(&mut self.controller, action))
    }

    fn set_rate(&mut self, time: u64, rate: u32) -> u64 {
        let answer = refusal::first(&[
            (rate_beyond(rate), refusal::RATE),
            (time > refusal::MAX_TIME, refusal::TIME),
            (self.ledger.used_up(), refusal::CALLS),
            (self.ledger.before_last(time), refusal::EARLIER),
        ]);
        if answer == refusal::ACCEPTED {
            self.ledger.count_at(time);
            clock::set(time);
            self.controller.set_rate(rate);
        }
        answer
    }

    fn state(&self, lines: &mut Lines) {
        lines.number(self.controller.rate());
        lines.number(self.controller.min_rate());
        lines.number(self.controller.max_rate());
        lines.number(self.controller.ai_step());
        lines.f32(self.controller.md_hard());
        lines.f32(self.controller.md_soft());
        lines.numbers(&history(&self.controller));
        lines.numbers(&[self.ledger.calls, self.ledger.last]);
    }
}

/// A new rate controller, or the number by which it is refused.
fn made(time: u64, parameters: Parameters) -> Result<Rate, u64> {
    let answer = refusal::first(&[
        (parameters.factor_beyond(), refusal::SETTINGS),
        (parameters.rate_beyond(), refusal::RATE),
        (time > refusal::MAX_TIME, refusal::TIME),
    ]);
    match answer {
        refusal::ACCEPTED => Ok(Rate::new(time, parameters)),
        _ => Err(answer),
    }
}

/// A refused making shows nothing, and the earlier rate controller stays.
fn refused(answer: u64, lines: &mut Lines) {
    lines.number(answer);
    lines.numbers(&[0; 17]);
}

/// Whether the rate changed. Where the product is above the rate, the Rust panics; the port keeps the rate.
pub fn apply(controller: &mut RateController, action: CongestionAction) -> bool {
    if !rises(controller, action) {
        return controller.apply_action(action).is_some();
    }
    let panicked = overflow::caught(|| {
        controller.apply_action(action);
    });
    assert!(panicked, "a decrease above the rate passed");
    false
}

/// A decrease whose product is above the rate, as the Rust itself works it out.
pub fn rises(controller: &RateController, action: CongestionAction) -> bool {
    let is_decrease = matches!(
        action,
        CongestionAction::DecreaseSoft | CongestionAction::DecreaseHard
    );
    is_decrease && controller.preview_action(action) > controller.rate()
}

pub fn rate_beyond(rate: u32) -> bool {
    u64::from(rate) > refusal::MAX_RATE
}

/// The time of the last change and the metrics, in the Rust's order.
pub fn history(controller: &RateController) -> [u64; 8] {
    let metrics = controller.metrics();
    [
        controller.last_change().nanoseconds(),
        metrics.increases,
        metrics.decreases_soft,
        metrics.decreases_hard,
        metrics.capacity_lost,
        metrics.capacity_gained,
        metrics.peak_rate.into(),
        metrics.min_rate_reached.into(),
    ]
}
