//! The token bucket.

use crate::clock;
use crate::congestion::token_bucket::TokenBucket;
use crate::line::Lines;
use crate::operation::*;
use crate::refusal::{self, Ledger};
use crate::script::Record;

pub struct Bucket {
    bucket: TokenBucket,
    ledger: Ledger,
}

impl Default for Bucket {
    fn default() -> Self {
        Self::new(0, 1, 0)
    }
}

impl Bucket {
    fn new(time: u64, rate: u32, capacity: u64) -> Self {
        clock::set(time);
        Self {
            bucket: TokenBucket::new(rate, capacity),
            ledger: Ledger::new(time),
        }
    }

    pub fn play(&mut self, record: Record, lines: &mut Lines) {
        let [a, b, c, ..] = record.arguments;
        let (answer, result) = match record.operation {
            BUCKET_NEW => (self.make(a, b as u32, c), 0),
            REFILL => self.call(a, false, |bucket| {
                bucket.tokens();
                0
            }),
            TRY_CONSUME => self.call(a, bytes_beyond(b), |bucket| bucket.try_consume(b).into()),
            FORCE_CONSUME => self.call(a, bytes_beyond(b), |bucket| {
                bucket.force_consume(b);
                0
            }),
            SET_RATE => self.call(a, rate_beyond(b as u32), |bucket| {
                bucket.set_rate(b as u32);
                0
            }),
            SET_CAPACITY => (self.set_capacity(a), 0),
            TIME_UNTIL_AVAILABLE => self.call(a, bytes_beyond(b), |bucket| wait(bucket, b)),
            _ => {
                self.ledger.calls = a;
                (refusal::ACCEPTED, 0)
            }
        };
        lines.numbers(&[answer, result]);
        self.state(lines);
    }

    /// A refused bucket leaves the zero one.
    fn make(&mut self, time: u64, rate: u32, capacity: u64) -> u64 {
        let beyond = rate_beyond(rate) || bytes_beyond(capacity);
        let answer = refusal::first(&[
            (beyond, refusal::RATE),
            (time > refusal::MAX_TIME, refusal::TIME),
        ]);
        *self = match answer {
            refusal::ACCEPTED => Self::new(time, rate, capacity),
            _ => Self::new(0, 0, 0),
        };
        answer
    }

    /// A call at a time: its answer and its result, 0 where it is turned down.
    fn call(
        &mut self,
        time: u64,
        beyond: bool,
        step: impl FnOnce(&mut TokenBucket) -> u64,
    ) -> (u64, u64) {
        let answer = refusal::first(&[
            (beyond, refusal::RATE),
            (time > refusal::MAX_TIME, refusal::TIME),
            (self.ledger.used_up(), refusal::CALLS),
            (self.ledger.before_last(time), refusal::EARLIER),
        ]);
        if answer != refusal::ACCEPTED {
            return (answer, 0);
        }
        self.ledger.count_at(time);
        clock::set(time);
        (answer, step(&mut self.bucket))
    }

    fn set_capacity(&mut self, capacity: u64) -> u64 {
        let answer = refusal::first(&[
            (bytes_beyond(capacity), refusal::RATE),
            (self.ledger.used_up(), refusal::CALLS),
        ]);
        if answer == refusal::ACCEPTED {
            self.ledger.count();
            self.bucket.set_capacity(capacity);
        }
        answer
    }

    fn state(&self, lines: &mut Lines) {
        lines.number(self.bucket.tokens_snapshot());
        lines.number(self.bucket.capacity());
        lines.number(self.bucket.rate());
        lines.number(self.bucket.last_refill().nanoseconds());
        lines.numbers(&[self.ledger.calls, self.ledger.last]);
    }
}

/// The wait in nanoseconds. At rate 0 the Rust panics where tokens are short; the port tells the largest u64.
fn wait(bucket: &mut TokenBucket, bytes: u64) -> u64 {
    if bucket.rate() == 0 && bucket.tokens_snapshot() < bytes {
        return u64::MAX;
    }
    let nanoseconds = bucket.time_until_available(bytes).as_nanos();
    u64::try_from(nanoseconds).expect("a wait fits 64 bits")
}

fn rate_beyond(rate: u32) -> bool {
    !(1..=refusal::MAX_RATE).contains(&rate.into())
}

fn bytes_beyond(bytes: u64) -> bool {
    bytes > refusal::MAX_RATE
}
