//! The writer pacer.

use crate::clock;
use crate::congestion::coalescing::InstanceKey;
use crate::congestion::config::{CongestionConfig, Priority};
use crate::congestion::writer_pacer::{
    EnqueueError, PendingSample, SendAction, WriterPacer, WriterPacerMetrics,
};
use crate::digest;
use crate::line::Lines;
use crate::operation::*;
use crate::play::config;
use crate::play::pool::{Pool, Slots, SLOT_BYTES};
use crate::play::queue::joined_waiting;
use crate::refusal::{self, Ledger};
use crate::script::Record;

/// Action, class, sequence, length, wait and digest where nothing is sent.
pub const NO_ACTION: [u64; 6] = [0, 0, 0, 0, 0, digest::START];

pub struct Pacer {
    pacer: WriterPacer,
    /// Of P0, P1 and P2.
    slots: [Slots; 3],
    ledger: Ledger,
}

impl Default for Pacer {
    fn default() -> Self {
        let config = CongestionConfig::default().with_queue_sizes(1, 1, 1);
        Self::new(config, 0, 1)
    }
}

impl Pacer {
    pub fn new(config: CongestionConfig, time: u64, rate: u32) -> Self {
        let [p0, p1, p2] = config::limits(&config);
        clock::set(time);
        Self {
            slots: [
                Slots::new(0, p0),
                Slots::new(p0, p1),
                Slots::new(p0 + p1, p2),
            ],
            pacer: WriterPacer::with_rate(config, rate),
            ledger: Ledger::new(time),
        }
    }

    pub fn play(
        &mut self,
        record: Record,
        config: &CongestionConfig,
        bytes: &[u8],
        pool: &mut Pool,
        lines: &mut Lines,
    ) {
        let [a, b, c, ..] = record.arguments;
        let (answer, action) = match record.operation {
            PACER_NEW => match made(config, a, b as u32) {
                Ok(pacer) => {
                    *self = pacer;
                    (refusal::ACCEPTED, NO_ACTION)
                }
                Err(answer) => return refused(answer, lines),
            },
            PACER_ENQUEUE => (self.enqueue(a, class(b), bytes, pool), NO_ACTION),
            PACER_ENQUEUE_KEYED => {
                let key = InstanceKey::new(b, c);
                (self.enqueue_keyed(a, key, bytes, pool), NO_ACTION)
            }
            PACER_TRY_SEND => {
                let (answer, action) = self.try_send(a, pool);
                (answer, action_fields(&action))
            }
            PACER_SET_RATE => (self.set_rate(a, b as u32), NO_ACTION),
            _ => {
                self.set_calls(a);
                (refusal::ACCEPTED, NO_ACTION)
            }
        };
        lines.number(answer);
        lines.numbers(&action);
        self.state(lines);
    }

    pub fn enqueue(&mut self, time: u64, class: Priority, bytes: &[u8], pool: &mut Pool) -> u64 {
        self.hand_in(time, class, bytes, pool, |pacer| {
            pacer.enqueue(bytes.to_vec(), class)
        })
    }

    pub fn enqueue_keyed(
        &mut self,
        time: u64,
        key: InstanceKey,
        bytes: &[u8],
        pool: &mut Pool,
    ) -> u64 {
        self.hand_in(time, Priority::P2, bytes, pool, |pacer| {
            pacer.enqueue_p2_keyed(bytes.to_vec(), key)
        })
    }

    /// 13 and 12 are the Rust's own errors; 12 counts as an accepted call.
    fn hand_in(
        &mut self,
        time: u64,
        class: Priority,
        bytes: &[u8],
        pool: &mut Pool,
        enqueue: impl FnOnce(&mut WriterPacer) -> Result<(), EnqueueError>,
    ) -> u64 {
        let answer = refusal::first(&[
            (bytes.len() > SLOT_BYTES, refusal::LENGTH),
            (time > refusal::MAX_TIME, refusal::TIME),
            (self.is_short(pool), refusal::BUFFER),
            (self.ledger.used_up(), refusal::CALLS),
            (self.ledger.before_last(time), refusal::EARLIER),
        ]);
        if answer != refusal::ACCEPTED {
            return answer;
        }
        clock::set(time);
        let coalesced = self.pacer.p2().coalesced_count();
        match enqueue(&mut self.pacer) {
            Err(EnqueueError::Disabled) => return refusal::DISABLED,
            Err(EnqueueError::QueueFull) => {
                self.ledger.count_at(time);
                return refusal::P0_FULL;
            }
            Err(EnqueueError::Timeout) => panic!("a hand-in that does not block timed out"),
            Ok(()) => self.ledger.count_at(time),
        }
        let slots = &mut self.slots[usize::from(class.as_u8())];
        let slot = match class {
            Priority::P0 | Priority::P1 => slots.admit(),
            Priority::P2 => slots.admit_keyed(self.pacer.p2(), coalesced),
        };
        pool.keep(slot, bytes);
        refusal::ACCEPTED
    }

    /// The Rust's action; `Empty` where the call is turned down.
    pub fn try_send(&mut self, time: u64, pool: &Pool) -> (u64, SendAction) {
        let answer = refusal::first(&[
            (time > refusal::MAX_TIME, refusal::TIME),
            (self.is_short(pool), refusal::BUFFER),
            (self.ledger.used_up(), refusal::CALLS),
            (self.ledger.before_last(time), refusal::EARLIER),
        ]);
        if answer != refusal::ACCEPTED {
            return (answer, SendAction::Empty);
        }
        self.ledger.count_at(time);
        clock::set(time);
        let action = self.pacer.try_send();
        if let SendAction::Send(sample) = &action {
            pool.must_hold(self.slot_left_by(sample), &sample.data);
        }
        (answer, action)
    }

    /// The slot of a record that has just left the head of its queue.
    fn slot_left_by(&self, sample: &PendingSample) -> usize {
        let (p0, p1, p2) = self.pacer.queue_lengths();
        let class = usize::from(sample.priority.as_u8());
        self.slots[class].waiting([p0, p1, p2][class] + 1, 0)
    }

    pub fn set_rate(&mut self, time: u64, rate: u32) -> u64 {
        let answer = refusal::first(&[
            (u64::from(rate) > refusal::MAX_RATE, refusal::RATE),
            (time > refusal::MAX_TIME, refusal::TIME),
            (self.ledger.used_up(), refusal::CALLS),
            (self.ledger.before_last(time), refusal::EARLIER),
        ]);
        if answer == refusal::ACCEPTED {
            self.ledger.count_at(time);
            clock::set(time);
            self.pacer.set_rate(rate);
        }
        answer
    }

    pub fn set_calls(&mut self, calls: u64) {
        self.ledger.calls = calls;
    }

    /// Of P0, P1 and P2.
    pub fn limits(&self) -> [usize; 3] {
        config::limits(self.pacer.config())
    }

    /// How many slots it needs.
    pub fn slot_count(&self) -> usize {
        self.limits().iter().sum()
    }

    pub fn rate(&self) -> u32 {
        self.pacer.rate()
    }

    fn is_short(&self, pool: &Pool) -> bool {
        pool.is_short(self.slot_count())
    }

    fn state(&self, lines: &mut Lines) {
        lines.numbers(&fields(&self.pacer));
        lines.numbers(&[self.ledger.calls, self.ledger.last, waiting(&self.pacer)]);
    }
}

/// The bucket, the lengths of P0, P1 and P2, the next sequence numbers, P2's bytes and the metrics.
pub fn fields(pacer: &WriterPacer) -> Vec<u64> {
    let (bucket, p2) = (pacer.bucket(), pacer.p2());
    let lengths = pacer.queue_lengths();
    let mut fields = vec![
        bucket.tokens_snapshot(),
        bucket.capacity(),
        bucket.rate().into(),
        bucket.last_refill().nanoseconds(),
        lengths.0 as u64,
        lengths.1 as u64,
        lengths.2 as u64,
        pacer.next_sequence(),
        p2.next_sequence(),
        p2.total_bytes() as u64,
    ];
    fields.extend(counts(pacer.metrics()));
    fields
}

/// The digest of what waits: P0's, P1's, then P2's.
pub fn waiting(pacer: &WriterPacer) -> u64 {
    let first = pacer.waiting_p0().iter();
    let digest = first
        .chain(pacer.waiting_p1())
        .flat_map(|sample| [sample.sequence, sample.data.len() as u64])
        .fold(digest::START, digest::joined);
    joined_waiting(digest, pacer.p2())
}

/// A new pacer, or the number by which it is refused.
fn made(config: &CongestionConfig, time: u64, rate: u32) -> Result<Pacer, u64> {
    let settings = config::answer(config);
    let rate_beyond = !(1..=refusal::MAX_RATE).contains(&rate.into());
    let answer = refusal::first(&[
        (settings != refusal::ACCEPTED, settings),
        (rate_beyond, refusal::RATE),
        (time > refusal::MAX_TIME, refusal::TIME),
    ]);
    match answer {
        refusal::ACCEPTED => Ok(Pacer::new(config.clone(), time, rate)),
        _ => Err(answer),
    }
}

/// A refused making shows nothing, and the earlier pacer stays.
fn refused(answer: u64, lines: &mut Lines) {
    lines.number(answer);
    lines.numbers(&NO_ACTION);
    lines.numbers(&[0; 24]);
    lines.number(digest::START);
}

pub fn class(number: u64) -> Priority {
    match number % 3 {
        0 => Priority::P0,
        1 => Priority::P1,
        _ => Priority::P2,
    }
}

pub fn action_fields(action: &SendAction) -> [u64; 6] {
    match action {
        SendAction::Empty => NO_ACTION,
        SendAction::Send(sample) => [
            1,
            sample.priority.as_u8().into(),
            sample.sequence,
            sample.data.len() as u64,
            0,
            digest::of_bytes(&sample.data),
        ],
        SendAction::RateLimited { wait_time } => {
            let wait = u64::try_from(wait_time.as_nanos()).expect("a wait fits 64 bits");
            [2, 0, 0, 0, wait, digest::START]
        }
    }
}

/// The metrics in the Rust's order.
fn counts(metrics: &WriterPacerMetrics) -> [u64; 12] {
    [
        metrics.enqueued_p0,
        metrics.enqueued_p1,
        metrics.enqueued_p2,
        metrics.sent_p0,
        metrics.sent_p1,
        metrics.sent_p2,
        metrics.dropped_p1,
        metrics.coalesced_p2,
        metrics.dropped_p2,
        metrics.bytes_sent,
        metrics.rate_limited,
        metrics.force_sends_p0,
    ]
}
