//! The controller.

use crate::clock;
use crate::congestion::budget_allocator::{WriterBudgetUpdate, WriterId};
use crate::congestion::config::{CongestionConfig, Priority};
use crate::congestion::controller::CongestionController;
use crate::congestion::scorer::CongestionAction;
use crate::digest;
use crate::line::Lines;
use crate::operation::*;
use crate::overflow;
use crate::play::allocator::{self, Told};
use crate::play::config;
use crate::play::numeric::f32_of;
use crate::play::pacer::class;
use crate::play::{ecn, peers, rate, scorer};
use crate::refusal::{self, Ledger};
use crate::script::Record;

pub struct Controller {
    controller: CongestionController,
    /// The peers in the order they were entered; the Rust keeps them in a HashMap.
    peers: Vec<u32>,
    ledger: Ledger,
}

impl Default for Controller {
    fn default() -> Self {
        Self::new(CongestionConfig::default(), 0)
    }
}

impl Controller {
    pub fn new(config: CongestionConfig, time: u64) -> Self {
        clock::set(time);
        Self {
            controller: CongestionController::new(config),
            peers: Vec::new(),
            ledger: Ledger::new(time),
        }
    }

    pub fn play(&mut self, record: Record, config: &CongestionConfig, lines: &mut Lines) {
        let [a, b, c, ..] = record.arguments;
        let told = match record.operation {
            CONTROLLER_NEW => match made(config, a) {
                Ok(controller) => {
                    *self = controller;
                    Told::default()
                }
                Err(answer) => return refused(answer, lines),
            },
            CONTROLLER_REGISTER => Told::answer(self.register(a, class(b))),
            CONTROLLER_TICK => self.tick(a),
            CONTROLLER_RTT => Told::answer(self.rtt_sample(a, b as u32, f32_of(c))),
            CONTROLLER_SET_RATE => self.set_rate(a, b as u32),
            CONTROLLER_CALLS => {
                self.set_calls(a);
                Told::default()
            }
            signal => self.signal(signal, a),
        };
        lines.numbers(&[told.answer, told.result]);
        lines.numbers(&fields(&self.controller));
        lines.numbers(&[self.ledger.calls, self.ledger.last]);
        lines.number(allocator::writers_digest(self.controller.allocator()));
        lines.number(allocator::updates_digest(&told.updates));
        lines.number(peers::digest(self.controller.rtt_tracker(), &self.peers));
    }

    pub fn register(&mut self, id: WriterId, class: Priority) -> u64 {
        let answer = refusal::first(&[
            (self.ledger.used_up(), refusal::CALLS),
            (
                allocator::no_room(self.controller.allocator(), id),
                refusal::FULL,
            ),
        ]);
        if answer == refusal::ACCEPTED {
            self.ledger.count();
            self.controller.register_writer(id, class);
        }
        answer
    }

    /// The result is 1 where the rate changed.
    pub fn tick(&mut self, time: u64) -> Told {
        let answer = refusal::first(&[
            (time > refusal::MAX_TIME, refusal::TIME),
            (self.ledger.used_up(), refusal::CALLS),
            (self.ledger.before_last(time), refusal::EARLIER),
        ]);
        if answer != refusal::ACCEPTED {
            return Told::answer(answer);
        }
        self.ledger.count_at(time);
        clock::set(time);
        match tick(&mut self.controller) {
            None => Told::default(),
            Some(updates) => Told {
                result: 1,
                updates,
                ..Told::default()
            },
        }
    }

    /// A signal that takes no time, by its operation.
    pub fn signal(&mut self, operation: u64, argument: u64) -> Told {
        if self.ledger.used_up() {
            return Told::answer(refusal::CALLS);
        }
        self.ledger.count();
        let mut told = Told::default();
        match operation {
            CONTROLLER_EAGAIN => self.controller.on_eagain(),
            CONTROLLER_NACKS => self.controller.on_nacks(argument as u32),
            CONTROLLER_TOS => told.result = self.controller.on_ecn_tos(argument as u8).into(),
            _ => self.controller.on_ecn_ce(),
        }
        told
    }

    /// While disabled no peer is entered, and 14 is not looked at.
    pub fn rtt_sample(&mut self, time: u64, peer: u32, sample_ms: f32) -> u64 {
        let enters = self.controller.is_enabled() && !self.peers.contains(&peer);
        let answer = refusal::first(&[
            (refusal::rtt_beyond(sample_ms), refusal::RTT),
            (time > refusal::MAX_TIME, refusal::TIME),
            (self.ledger.used_up(), refusal::CALLS),
            (self.ledger.before_last(time), refusal::EARLIER),
            (
                enters && self.peers.len() >= refusal::MAX_PEERS,
                refusal::FULL,
            ),
        ]);
        if answer == refusal::ACCEPTED {
            self.ledger.count_at(time);
            clock::set(time);
            self.controller.on_rtt_sample(peer, sample_ms);
            if enters {
                self.peers.push(peer);
            }
        }
        answer
    }

    pub fn set_rate(&mut self, time: u64, rate: u32) -> Told {
        let answer = refusal::first(&[
            (rate::rate_beyond(rate), refusal::RATE),
            (time > refusal::MAX_TIME, refusal::TIME),
            (self.ledger.used_up(), refusal::CALLS),
            (self.ledger.before_last(time), refusal::EARLIER),
        ]);
        if answer != refusal::ACCEPTED {
            return Told::answer(answer);
        }
        self.ledger.count_at(time);
        clock::set(time);
        Told {
            answer,
            result: 1,
            updates: self.controller.set_rate(rate),
        }
    }

    pub fn set_calls(&mut self, calls: u64) {
        self.ledger.calls = calls;
    }

    pub fn controller(&self) -> &CongestionController {
        &self.controller
    }
}

/// All but the digests of its tables.
pub fn fields(controller: &CongestionController) -> Vec<u64> {
    let (metrics, tracker) = (controller.metrics(), controller.rtt_tracker());
    let mut fields = vec![
        controller.is_enabled().into(),
        controller.current_rate().into(),
    ];
    fields.extend(scorer::score_and_state(controller.scorer()));
    fields.extend([
        controller.last_tick().nanoseconds(),
        controller.nack_count_window().into(),
        controller.nack_window_start().nanoseconds(),
        metrics.current_rate_bps.into(),
        metrics.eagain_total,
        metrics.ecn_ce_received,
    ]);
    fields.extend(scorer::state(controller.scorer()));
    fields.extend(rate::history(controller.rate_controller()));
    fields.extend(controller.ecn_processor().map_or([0; 8], ecn::state));
    fields.extend(allocator::state(controller.allocator()));
    fields.extend([tracker.any_inflated().into(), tracker.peer_count() as u64]);
    fields
}

/// A new controller, or the number by which it is refused.
fn made(config: &CongestionConfig, time: u64) -> Result<Controller, u64> {
    let settings = config::answer(config);
    let answer = refusal::first(&[
        (settings != refusal::ACCEPTED, settings),
        (time > refusal::MAX_TIME, refusal::TIME),
    ]);
    match answer {
        refusal::ACCEPTED => Ok(Controller::new(config.clone(), time)),
        _ => Err(answer),
    }
}

/// A refused making shows nothing, and the earlier controller stays.
fn refused(answer: u64, lines: &mut Lines) {
    lines.number(answer);
    lines.numbers(&[0; 54]);
    lines.numbers(&[digest::START; 3]);
}

/// The Rust's tick. Where a decrease is called for and its product is above the rate, the Rust panics: by then the last
/// tick, the NACK window and the scorer have moved, and the rate has not. The port tells no change there.
pub fn tick(controller: &mut CongestionController) -> Option<Vec<WriterBudgetUpdate>> {
    if !rate::rises(controller.rate_controller(), next_decrease(controller)) {
        return controller.tick();
    }
    let events = |controller: &CongestionController| {
        let metrics = controller.scorer().metrics();
        metrics.congestion_events
    };
    let before = events(controller);
    let mut updates = None;
    let panicked = overflow::caught(|| updates = controller.tick());
    let called_for = events(controller) > before;
    assert_eq!(panicked, called_for, "a decrease above the rate");
    updates
}

/// The kind of the decrease that the next tick calls for, if it calls for one.
fn next_decrease(controller: &CongestionController) -> CongestionAction {
    let had_eagain = controller.scorer().pending().eagain_count > 0;
    if had_eagain && controller.config().eagain_is_hard {
        CongestionAction::DecreaseHard
    } else {
        CongestionAction::DecreaseSoft
    }
}
