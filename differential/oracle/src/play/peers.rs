//! The tracker of peers.

use crate::clock;
use crate::congestion::rtt_estimator::{PeerRttTracker, RttEstimator};
use crate::digest;
use crate::line::Lines;
use crate::operation::*;
use crate::play::numeric::f32_of;
use crate::play::rtt;
use crate::refusal::{self, Ledger};
use crate::script::Record;

pub struct Peers {
    tracker: PeerRttTracker,
    /// The ids in the order they were entered; the Rust keeps them in a HashMap.
    ids: Vec<u32>,
    ledger: Ledger,
}

impl Default for Peers {
    fn default() -> Self {
        Self::new(100.0)
    }
}

impl Peers {
    fn new(default_ms: f32) -> Self {
        Self {
            tracker: PeerRttTracker::new(default_ms),
            ids: Vec::new(),
            ledger: Ledger::default(),
        }
    }

    pub fn play(&mut self, record: Record, lines: &mut Lines) {
        let [a, b, c, ..] = record.arguments;
        let answer = match record.operation {
            PEERS_SHOW => return self.show(a % refusal::MAX_PEERS as u64, lines),
            PEERS_NEW => self.make(f32_of(a)),
            PEERS_UPDATE => self.update(a, b as u32, f32_of(c)),
            _ => {
                self.ledger.calls = a;
                refusal::ACCEPTED
            }
        };
        lines.number(answer);
        lines.number(self.tracker.any_inflated());
        lines.number(self.tracker.peer_count() as u64);
        let digest = digest(&self.tracker, &self.ids);
        lines.numbers(&[self.ledger.calls, self.ledger.last, digest]);
    }

    /// A refused default leaves the zero tracker.
    fn make(&mut self, default_ms: f32) -> u64 {
        let answer = refusal::first(&[(refusal::rtt_beyond(default_ms), refusal::RTT)]);
        *self = Self::new(if answer == 0 { default_ms } else { 0.0 });
        answer
    }

    fn update(&mut self, time: u64, id: u32, sample_ms: f32) -> u64 {
        let known = self.tracker.get(id).is_some();
        let answer = refusal::first(&[
            (refusal::rtt_beyond(sample_ms), refusal::RTT),
            (time > refusal::MAX_TIME, refusal::TIME),
            (self.ledger.used_up(), refusal::CALLS),
            (self.ledger.before_last(time), refusal::EARLIER),
            (
                !known && self.ids.len() >= refusal::MAX_PEERS,
                refusal::FULL,
            ),
        ]);
        if answer == refusal::ACCEPTED {
            self.ledger.count_at(time);
            clock::set(time);
            self.tracker.update(id, sample_ms);
            if !known {
                self.ids.push(id);
            }
        }
        answer
    }

    fn show(&self, place: u64, lines: &mut Lines) {
        lines.number(place);
        match self.ids.get(place as usize) {
            None => lines.numbers(&[0; 9]),
            Some(&id) => {
                let estimator = estimator(&self.tracker, id);
                lines.number(id);
                lines.numbers(&rtt::state(estimator));
                lines.f32(estimator.rto());
                lines.number(estimator.is_inflated());
            }
        }
    }
}

/// The digest of a tracker's peers, in the order of `ids`.
pub fn digest(tracker: &PeerRttTracker, ids: &[u32]) -> u64 {
    let mut digest = digest::START;
    for &id in ids {
        digest = digest::joined(digest, id.into());
        digest = rtt::state(estimator(tracker, id))
            .into_iter()
            .fold(digest, digest::joined);
    }
    digest
}

fn estimator(tracker: &PeerRttTracker, id: u32) -> &RttEstimator {
    tracker.get(id).expect("a listed peer is tracked")
}
