//! The pool that queues and pacers are lent, and where their records are kept in it. The Rust owns its bytes, so the
//! pool is kept here, by document 01's rule.

use crate::congestion::coalescing::CoalescingQueue;
use crate::digest;
use crate::line::Lines;
use crate::operation::*;
use crate::script::Record;

pub const SLOT_BYTES: usize = 1472;
/// The slots of the longest queues: 128, 512 and 128.
pub const POOL_BYTES: usize = SLOT_BYTES * 768;

pub struct Pool {
    bytes: Vec<u8>,
    lent: usize,
}

impl Default for Pool {
    fn default() -> Self {
        Self {
            bytes: vec![0; POOL_BYTES],
            lent: 0,
        }
    }
}

impl Pool {
    pub fn play(&mut self, record: Record, lines: &mut Lines) {
        let [a, b, ..] = record.arguments;
        match record.operation {
            POOL_FILL => {
                self.bytes.fill(b as u8);
                self.lend(a);
            }
            POOL_LEND => self.lend(a),
            _ => {}
        }
        lines.number(self.lent as u64);
        if record.operation == POOL_SHOW {
            lines.number(digest::of_bytes(self.lent()));
        }
    }

    pub fn lend(&mut self, bytes: u64) {
        self.lent = bytes.min(POOL_BYTES as u64) as usize;
    }

    /// The bytes that are lent.
    pub fn lent(&self) -> &[u8] {
        &self.bytes[..self.lent]
    }

    pub fn lent_mut(&mut self) -> &mut [u8] {
        &mut self.bytes[..self.lent]
    }

    /// Fewer bytes are lent than `slots` slots have.
    pub fn is_short(&self, slots: usize) -> bool {
        self.lent < SLOT_BYTES * slots
    }

    /// Bytes past the record keep their old values.
    pub fn keep(&mut self, slot: usize, record: &[u8]) {
        let start = SLOT_BYTES * slot;
        self.bytes[start..start + record.len()].copy_from_slice(record);
    }

    /// Stops where the pool is not as the last call left it: a script owes that to what it shows.
    pub fn must_hold(&self, slot: usize, record: &[u8]) {
        let start = SLOT_BYTES * slot;
        assert!(
            self.bytes[start..].starts_with(record),
            "slot {slot} of the pool does not hold the record shown"
        );
    }
}

/// The slots of one queue: the k-th record admitted, k from 0, takes slot k modulo the limit.
pub struct Slots {
    /// How many slots stand before it in the pool.
    first: usize,
    limit: usize,
    admitted: u64,
}

impl Slots {
    pub fn new(first: usize, limit: usize) -> Self {
        Self {
            first,
            limit,
            admitted: 0,
        }
    }

    /// The slot of a record that has just joined the tail.
    pub fn admit(&mut self) -> usize {
        self.admitted += 1;
        self.slot(self.admitted - 1)
    }

    /// The slot of the record that `queue` has just taken in. Whether it replaced another is told by the Rust's count,
    /// `coalesced` before the call, and its place by the Rust's order.
    pub fn admit_keyed(&mut self, queue: &CoalescingQueue, coalesced: u64) -> usize {
        if queue.coalesced_count() == coalesced {
            self.admitted += 1;
        }
        let last = queue.next_sequence() - 1;
        let place = queue
            .waiting()
            .position(|sample| sample.sequence == last)
            .expect("the record taken in waits");
        self.waiting(queue.len(), place)
    }

    /// The slot at a place of a queue of `length` records, the head's place being 0: they are the last ones admitted.
    pub fn waiting(&self, length: usize, place: usize) -> usize {
        self.slot(self.admitted - length as u64 + place as u64)
    }

    fn slot(&self, admission: u64) -> usize {
        self.first + (admission % self.limit as u64) as usize
    }
}
