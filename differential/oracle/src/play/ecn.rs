//! The ECN processor.

use crate::congestion::ecn::EcnProcessor;
use crate::line::Lines;
use crate::operation::*;
use crate::refusal::{self, Ledger};
use crate::script::Record;

#[derive(Default)]
pub struct Ecn {
    processor: EcnProcessor,
    ledger: Ledger,
}

impl Ecn {
    pub fn play(&mut self, record: Record, lines: &mut Lines) {
        let a = record.arguments[0];
        let (answer, signal) = match record.operation {
            ECN_NEW => {
                *self = Self::default();
                (refusal::ACCEPTED, false)
            }
            PROCESS_TOS => self.call(|processor| processor.process_tos(a as u8)),
            PROCESS_CE => self.call(EcnProcessor::process_ce),
            _ => {
                self.ledger.calls = a;
                (refusal::ACCEPTED, false)
            }
        };
        lines.number(answer);
        lines.number(signal);
        lines.numbers(&state(&self.processor));
        lines.number(self.ledger.calls);
    }

    fn call(&mut self, process: impl FnOnce(&mut EcnProcessor) -> bool) -> (u64, bool) {
        if self.ledger.used_up() {
            return (refusal::CALLS, false);
        }
        self.ledger.count();
        (refusal::ACCEPTED, process(&mut self.processor))
    }
}

/// The statistics, in the Rust's order, and the window.
pub fn state(processor: &EcnProcessor) -> [u64; 8] {
    let stats = processor.stats();
    [
        stats.packets_received,
        stats.ect0_received,
        stats.ect1_received,
        stats.ce_received,
        stats.not_ect_received,
        stats.ce_responded,
        processor.ce_in_window().into(),
        processor.packets_in_window().into(),
    ]
}
