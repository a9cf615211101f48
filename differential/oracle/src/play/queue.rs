//! The coalescing queue.

use crate::congestion::coalescing::{CoalescedSample, CoalescingQueue, InstanceKey};
use crate::digest;
use crate::line::Lines;
use crate::operation::*;
use crate::play::pool::{Pool, Slots, SLOT_BYTES};
use crate::refusal::{self, Ledger};
use crate::script::Record;

/// Front, sequence, length, topic hash, key hash and digest where no record is shown.
const NO_FRONT: [u64; 6] = [0, 0, 0, 0, 0, digest::START];

pub struct Queue {
    queue: CoalescingQueue,
    slots: Slots,
    ledger: Ledger,
}

impl Default for Queue {
    fn default() -> Self {
        Self::new(1)
    }
}

impl Queue {
    fn new(limit: usize) -> Self {
        Self {
            queue: CoalescingQueue::new(limit),
            slots: Slots::new(0, limit),
            ledger: Ledger::default(),
        }
    }

    pub fn play(&mut self, record: Record, bytes: &[u8], pool: &mut Pool, lines: &mut Lines) {
        let [a, b, ..] = record.arguments;
        let (answer, front) = match record.operation {
            QUEUE_NEW if limit_beyond(a) => return refused(refusal::SETTINGS, lines),
            QUEUE_NEW => {
                *self = Self::new(a as usize);
                (refusal::ACCEPTED, NO_FRONT)
            }
            QUEUE_INSERT => (self.insert(bytes, InstanceKey::new(a, b), pool), NO_FRONT),
            QUEUE_POP => self.pop_front(pool),
            QUEUE_PEEK => (refusal::ACCEPTED, self.peek_front(pool)),
            _ => {
                self.ledger.calls = a;
                (refusal::ACCEPTED, NO_FRONT)
            }
        };
        lines.number(answer);
        lines.numbers(&front);
        self.state(lines);
    }

    fn insert(&mut self, bytes: &[u8], key: InstanceKey, pool: &mut Pool) -> u64 {
        let answer = refusal::first(&[
            (bytes.len() > SLOT_BYTES, refusal::LENGTH),
            (pool.is_short(self.queue.capacity()), refusal::BUFFER),
            (self.ledger.used_up(), refusal::CALLS),
        ]);
        if answer == refusal::ACCEPTED {
            self.ledger.count();
            let coalesced = self.queue.coalesced_count();
            self.queue.insert(bytes.to_vec(), key);
            pool.keep(self.slots.admit_keyed(&self.queue, coalesced), bytes);
        }
        answer
    }

    /// An empty queue is accepted and shows none.
    fn pop_front(&mut self, pool: &Pool) -> (u64, [u64; 6]) {
        let answer = refusal::first(&[
            (pool.is_short(self.queue.capacity()), refusal::BUFFER),
            (self.ledger.used_up(), refusal::CALLS),
        ]);
        if answer != refusal::ACCEPTED {
            return (answer, NO_FRONT);
        }
        self.ledger.count();
        let length = self.queue.len();
        let popped = self.queue.pop_front();
        (answer, self.front(popped.as_ref(), length, pool))
    }

    fn peek_front(&self, pool: &Pool) -> [u64; 6] {
        self.front(self.queue.peek_front(), self.queue.len(), pool)
    }

    /// What a line shows of the head of a queue of `length` records.
    fn front(&self, sample: Option<&CoalescedSample>, length: usize, pool: &Pool) -> [u64; 6] {
        let Some(sample) = sample else {
            return NO_FRONT;
        };
        pool.must_hold(self.slots.waiting(length, 0), &sample.data);
        let [sequence, length, topic_hash, key_hash] = fields(sample);
        let bytes = digest::of_bytes(&sample.data);
        [1, sequence, length, topic_hash, key_hash, bytes]
    }

    fn state(&self, lines: &mut Lines) {
        lines.numbers(&[
            self.queue.len() as u64,
            self.queue.capacity() as u64,
            self.queue.next_sequence(),
            self.queue.coalesced_count(),
            self.queue.dropped_count(),
            self.queue.total_bytes() as u64,
            self.ledger.calls,
            joined_waiting(digest::START, &self.queue),
        ]);
    }
}

fn limit_beyond(limit: u64) -> bool {
    !(1..=128).contains(&limit)
}

/// A refused making shows nothing, and the earlier queue stays.
fn refused(answer: u64, lines: &mut Lines) {
    lines.number(answer);
    lines.numbers(&NO_FRONT);
    lines.numbers(&[0; 7]);
    lines.number(digest::START);
}

/// The digest with what waits in the queue, from the head.
pub fn joined_waiting(digest: u64, queue: &CoalescingQueue) -> u64 {
    queue
        .waiting()
        .flat_map(fields)
        .fold(digest, digest::joined)
}

fn fields(sample: &CoalescedSample) -> [u64; 4] {
    [
        sample.sequence,
        sample.data.len() as u64,
        sample.key.topic_hash(),
        sample.key.key_hash(),
    ]
}
