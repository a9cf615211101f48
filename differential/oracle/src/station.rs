//! The station of document 01 over the Rust: one controller and up to four writers with a pacer each. The Rust has no
//! station, so the numbers, the one ledger and the pool are kept here; what an accepted call does is the Rust's.

use crate::clock;
use crate::congestion::budget_allocator::{WriterBudgetUpdate, WriterId};
use crate::congestion::coalescing::InstanceKey;
use crate::congestion::config::{CongestionConfig, Priority};
use crate::congestion::controller::CongestionController;
use crate::congestion::writer_pacer::{EnqueueError, PendingSample, SendAction, WriterPacer};
use crate::play::config;
use crate::play::controller::tick;
use crate::play::pool::{Slots, SLOT_BYTES};
use crate::refusal::{self, Ledger};

pub const MAX_PACERS: usize = 4;

pub struct Station {
    pub settings: CongestionConfig,
    pub controller: CongestionController,
    /// In the order registered: a writer's place is its pacer's number.
    pub writers: Vec<Writer>,
    /// The peers in the order they were entered; the Rust keeps them in a HashMap.
    pub peers: Vec<u32>,
    pub ledger: Ledger,
}

pub struct Writer {
    pub id: WriterId,
    pub pacer: WriterPacer,
    /// Of P0, P1 and P2.
    pub slots: [Slots; 3],
}

/// A record that is handed in. P0 and P1 do not look at the key.
pub struct Handed<'a> {
    pub class: Priority,
    pub key: InstanceKey,
    pub bytes: &'a [u8],
}

/// New budgets, by class and then by id.
pub type Updates = Vec<WriterBudgetUpdate>;

impl Station {
    /// A new station, or the number by which it is refused.
    pub fn new(settings: &CongestionConfig, time: u64) -> Result<Self, u64> {
        let unfit = config::answer(settings);
        let answer = refusal::first(&[
            (unfit != refusal::ACCEPTED, unfit),
            (time > refusal::MAX_TIME, refusal::TIME),
        ]);
        if answer != refusal::ACCEPTED {
            return Err(answer);
        }
        clock::set(time);
        Ok(Self {
            settings: settings.clone(),
            controller: CongestionController::new(settings.clone()),
            writers: Vec::new(),
            peers: Vec::new(),
            ledger: Ledger::new(time),
        })
    }

    /// How many bytes of pool a hand-in and a send attempt need, however many writers there are.
    pub fn pool_bytes(&self) -> usize {
        MAX_PACERS * SLOT_BYTES * self.limits().iter().sum::<usize>()
    }

    pub fn register(&mut self, time: u64, id: WriterId, class: Priority) -> u64 {
        let answer = refusal::first(&[
            (time > refusal::MAX_TIME, refusal::TIME),
            (self.ledger.used_up(), refusal::CALLS),
            (self.ledger.before_last(time), refusal::EARLIER),
            (self.place_of(id).is_some(), refusal::KNOWN_ID),
            (self.writers.len() >= MAX_PACERS, refusal::FULL),
        ]);
        if answer == refusal::ACCEPTED {
            self.accept_at(time);
            self.controller.register_writer(id, class);
            let writer = self.new_writer(id);
            self.writers.push(writer);
        }
        answer
    }

    pub fn eagain(&mut self, time: u64) -> u64 {
        self.signal(time, |controller| controller.on_eagain()).0
    }

    /// Whether the mark signals congestion.
    pub fn tos(&mut self, time: u64, tos: u8) -> (u64, bool) {
        self.signal(time, |controller| controller.on_ecn_tos(tos))
    }

    pub fn nacks(&mut self, time: u64, count: u32) -> u64 {
        self.signal(time, |controller| controller.on_nacks(count)).0
    }

    /// While disabled no peer is entered, and 14 is not looked at.
    pub fn rtt(&mut self, time: u64, peer: u32, sample_ms: f32) -> u64 {
        let enters = self.controller.is_enabled() && !self.peers.contains(&peer);
        let no_room = enters && self.peers.len() >= refusal::MAX_PEERS;
        let answer = refusal::first(&[
            (refusal::rtt_beyond(sample_ms), refusal::RTT),
            (time > refusal::MAX_TIME, refusal::TIME),
            (self.ledger.used_up(), refusal::CALLS),
            (self.ledger.before_last(time), refusal::EARLIER),
            (no_room, refusal::FULL),
        ]);
        if answer == refusal::ACCEPTED {
            self.accept_at(time);
            self.controller.on_rtt_sample(peer, sample_ms);
            if enters {
                self.peers.push(peer);
            }
        }
        answer
    }

    /// The new budgets where the rate changed; each has gone to its pacer.
    pub fn tick(&mut self, time: u64) -> (u64, Option<Updates>) {
        let answer = self.unfit_time(time);
        if answer != refusal::ACCEPTED {
            return (answer, None);
        }
        self.accept_at(time);
        let updates = tick(&mut self.controller);
        self.pass_on(updates.as_deref().unwrap_or_default());
        (answer, updates)
    }

    /// The new budgets, none where the call is turned down; each has gone to its pacer.
    pub fn set_rate(&mut self, time: u64, rate: u32) -> (u64, Option<Updates>) {
        let answer = refusal::first(&[
            (u64::from(rate) > refusal::MAX_RATE, refusal::RATE),
            (time > refusal::MAX_TIME, refusal::TIME),
            (self.ledger.used_up(), refusal::CALLS),
            (self.ledger.before_last(time), refusal::EARLIER),
        ]);
        if answer != refusal::ACCEPTED {
            return (answer, None);
        }
        self.accept_at(time);
        let updates = self.controller.set_rate(rate);
        self.pass_on(&updates);
        (answer, Some(updates))
    }

    /// The bytes are kept in the record's slot of the pool. 12 counts as an accepted call.
    pub fn hand_in(&mut self, time: u64, pacer: usize, record: &Handed, pool: &mut [u8]) -> u64 {
        let answer = refusal::first(&[
            (record.bytes.len() > SLOT_BYTES, refusal::LENGTH),
            (time > refusal::MAX_TIME, refusal::TIME),
            (pool.len() < self.pool_bytes(), refusal::BUFFER),
            (self.ledger.used_up(), refusal::CALLS),
            (self.ledger.before_last(time), refusal::EARLIER),
            (!self.controller.is_enabled(), refusal::DISABLED),
            (pacer >= self.writers.len(), refusal::NO_WRITER),
        ]);
        if answer != refusal::ACCEPTED {
            return answer;
        }
        self.accept_at(time);
        match self.writers[pacer].take_in(record) {
            None => refusal::P0_FULL,
            Some(slot) => {
                let start = SLOT_BYTES * slot;
                pool[start..start + record.bytes.len()].copy_from_slice(record.bytes);
                refusal::ACCEPTED
            }
        }
    }

    /// The Rust's action, `Empty` where the call is turned down. The pool must be as the last call left it.
    pub fn send(&mut self, time: u64, pacer: usize, pool: &[u8]) -> (u64, SendAction) {
        let answer = refusal::first(&[
            (time > refusal::MAX_TIME, refusal::TIME),
            (pool.len() < self.pool_bytes(), refusal::BUFFER),
            (self.ledger.used_up(), refusal::CALLS),
            (self.ledger.before_last(time), refusal::EARLIER),
            (pacer >= self.writers.len(), refusal::NO_WRITER),
        ]);
        if answer != refusal::ACCEPTED {
            return (answer, SendAction::Empty);
        }
        self.accept_at(time);
        let writer = &mut self.writers[pacer];
        let action = writer.pacer.try_send();
        if let SendAction::Send(sample) = &action {
            let slot = writer.slot_left_by(sample);
            assert!(
                pool[SLOT_BYTES * slot..].starts_with(&sample.data),
                "slot {slot} of the pool does not hold the record sent"
            );
        }
        (answer, action)
    }

    /// A signal that only the state's numbers and the time can turn down.
    fn signal<T: Default>(
        &mut self,
        time: u64,
        signal: impl FnOnce(&mut CongestionController) -> T,
    ) -> (u64, T) {
        let answer = self.unfit_time(time);
        if answer != refusal::ACCEPTED {
            return (answer, T::default());
        }
        self.accept_at(time);
        (answer, signal(&mut self.controller))
    }

    /// The numbers that may apply to every call.
    fn unfit_time(&self, time: u64) -> u64 {
        refusal::first(&[
            (time > refusal::MAX_TIME, refusal::TIME),
            (self.ledger.used_up(), refusal::CALLS),
            (self.ledger.before_last(time), refusal::EARLIER),
        ])
    }

    fn accept_at(&mut self, time: u64) {
        self.ledger.count_at(time);
        clock::set(time);
    }

    /// Each budget is a rate setting of its writer's pacer.
    fn pass_on(&mut self, updates: &[WriterBudgetUpdate]) {
        for update in updates {
            let place = self
                .place_of(update.writer_id)
                .expect("every writer of the allocator is registered");
            self.writers[place].pacer.set_rate(update.budget_bps);
        }
    }

    fn place_of(&self, id: WriterId) -> Option<usize> {
        self.writers.iter().position(|writer| writer.id == id)
    }

    /// Of P0, P1 and P2.
    fn limits(&self) -> [usize; 3] {
        [
            self.settings.max_queue_p0,
            self.settings.max_queue_p1,
            self.settings.max_queue_p2,
        ]
    }

    /// The writer that is registered next; its slots follow those of the writers before it.
    fn new_writer(&self, id: WriterId) -> Writer {
        let [p0, p1, p2] = self.limits();
        let first = self.writers.len() * (p0 + p1 + p2);
        Writer {
            id,
            pacer: WriterPacer::with_rate(self.settings.clone(), self.settings.min_rate_bps),
            slots: [
                Slots::new(first, p0),
                Slots::new(first + p0, p1),
                Slots::new(first + p0 + p1, p2),
            ],
        }
    }
}

impl Writer {
    /// The slot of the record taken in; none where P0 is full.
    fn take_in(&mut self, record: &Handed) -> Option<usize> {
        let coalesced = self.pacer.p2().coalesced_count();
        let bytes = record.bytes.to_vec();
        let taken = match record.class {
            Priority::P0 | Priority::P1 => self.pacer.enqueue(bytes, record.class),
            Priority::P2 => self.pacer.enqueue_p2_keyed(bytes, record.key.clone()),
        };
        match taken {
            Err(EnqueueError::QueueFull) => return None,
            Err(error) => panic!("an accepted hand-in failed: {error}"),
            Ok(()) => {}
        }
        let slots = &mut self.slots[usize::from(record.class.as_u8())];
        Some(match record.class {
            Priority::P0 | Priority::P1 => slots.admit(),
            Priority::P2 => slots.admit_keyed(self.pacer.p2(), coalesced),
        })
    }

    /// The slot of a record that has just left the head of its queue.
    fn slot_left_by(&self, sample: &PendingSample) -> usize {
        let (p0, p1, p2) = self.pacer.queue_lengths();
        let class = usize::from(sample.priority.as_u8());
        self.slots[class].waiting([p0, p1, p2][class] + 1, 0)
    }
}
