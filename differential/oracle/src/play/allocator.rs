//! The budget allocator.

use crate::congestion::budget_allocator::{
    AllocationConfig, BudgetAllocator, WriterBudgetUpdate, WriterId, WriterInfo,
};
use crate::congestion::config::{CongestionConfig, Priority};
use crate::digest;
use crate::line::{f32_bits, Lines};
use crate::operation::*;
use crate::play::config;
use crate::play::numeric::f32_of;
use crate::play::pacer::class;
use crate::play::rate::rate_beyond;
use crate::refusal::{self, Ledger};
use crate::script::Record;

/// What a call tells beside the state.
#[derive(Default)]
pub struct Told {
    pub answer: u64,
    pub result: u64,
    pub updates: Vec<WriterBudgetUpdate>,
}

impl Told {
    /// No result and no updates.
    pub fn answer(answer: u64) -> Self {
        Self {
            answer,
            ..Self::default()
        }
    }
}

pub struct Allocator {
    allocator: BudgetAllocator,
    ledger: Ledger,
}

impl Default for Allocator {
    fn default() -> Self {
        Self::new(&CongestionConfig::default())
    }
}

impl Allocator {
    /// As the controller makes it.
    fn new(config: &CongestionConfig) -> Self {
        Self {
            allocator: BudgetAllocator::with_config(AllocationConfig {
                p0_min_share: config.p0_min_share,
                p0_min_bps: config.p0_min_bps,
                ..Default::default()
            }),
            ledger: Ledger::default(),
        }
    }

    pub fn play(&mut self, record: Record, config: &CongestionConfig, lines: &mut Lines) {
        let [a, b, c, ..] = record.arguments;
        let told = match record.operation {
            ALLOCATOR_SHOW => return self.show(a % refusal::MAX_WRITERS as u64, lines),
            ALLOCATOR_NEW => match config::answer(config) {
                refusal::ACCEPTED => {
                    *self = Self::new(config);
                    Told::default()
                }
                answer => return refused(answer, lines),
            },
            ALLOCATOR_REGISTER => Told::answer(self.register(a, class(b))),
            ALLOCATOR_REGISTER_WEIGHTED => {
                Told::answer(self.register_weighted(a, class(b), f32_of(c)))
            }
            ALLOCATOR_UNREGISTER => self.unregister(a),
            ALLOCATOR_REALLOCATE => self.reallocate(a as u32),
            _ => {
                self.ledger.calls = a;
                Told::default()
            }
        };
        lines.numbers(&[told.answer, told.result]);
        lines.numbers(&state(&self.allocator));
        lines.number(self.ledger.calls);
        lines.number(writers_digest(&self.allocator));
        lines.number(updates_digest(&told.updates));
    }

    fn register(&mut self, id: WriterId, class: Priority) -> u64 {
        let answer = refusal::first(&[
            (self.ledger.used_up(), refusal::CALLS),
            (no_room(&self.allocator, id), refusal::FULL),
        ]);
        if answer == refusal::ACCEPTED {
            self.ledger.count();
            self.allocator.register(id, class);
        }
        answer
    }

    fn register_weighted(&mut self, id: WriterId, class: Priority, weight: f32) -> u64 {
        let answer = refusal::first(&[
            (refusal::weight_beyond(weight), refusal::WEIGHT),
            (self.ledger.used_up(), refusal::CALLS),
            (no_room(&self.allocator, id), refusal::FULL),
        ]);
        if answer == refusal::ACCEPTED {
            self.ledger.count();
            self.allocator.register_weighted(id, class, weight);
        }
        answer
    }

    /// An unknown id is accepted, with result 0.
    fn unregister(&mut self, id: WriterId) -> Told {
        if self.ledger.used_up() {
            return Told::answer(refusal::CALLS);
        }
        self.ledger.count();
        Told {
            result: self.allocator.unregister(id).into(),
            ..Told::default()
        }
    }

    fn reallocate(&mut self, rate: u32) -> Told {
        let answer = refusal::first(&[
            (rate_beyond(rate), refusal::RATE),
            (self.ledger.used_up(), refusal::CALLS),
        ]);
        if answer != refusal::ACCEPTED {
            return Told::answer(answer);
        }
        self.ledger.count();
        Told {
            updates: self.allocator.reallocate(rate),
            ..Told::default()
        }
    }

    fn show(&self, place: u64, lines: &mut Lines) {
        lines.number(place);
        match table(&self.allocator).get(place as usize) {
            None => lines.numbers(&[0; 4]),
            Some(&writer) => lines.numbers(&fields(writer)),
        }
    }
}

/// A refused making shows nothing, and the earlier allocator stays.
fn refused(answer: u64, lines: &mut Lines) {
    lines.number(answer);
    lines.numbers(&[0; 8]);
    lines.numbers(&[digest::START; 2]);
}

/// A new id in a full table; a known one is replaced.
pub fn no_room(allocator: &BudgetAllocator, id: WriterId) -> bool {
    allocator.writer_count() >= refusal::MAX_WRITERS && allocator.get_writer(id).is_none()
}

/// The count of writers, the global budget and the statistics, in the Rust's order.
pub fn state(allocator: &BudgetAllocator) -> [u64; 6] {
    let stats = allocator.stats();
    [
        allocator.writer_count() as u64,
        allocator.global_budget().into(),
        stats.reallocations,
        stats.writers_registered,
        stats.writers_unregistered,
        stats.total_distributed_bps,
    ]
}

pub fn writers_digest(allocator: &BudgetAllocator) -> u64 {
    table(allocator)
        .into_iter()
        .flat_map(fields)
        .fold(digest::START, digest::joined)
}

pub fn updates_digest(updates: &[WriterBudgetUpdate]) -> u64 {
    updates
        .iter()
        .flat_map(|update| {
            [
                update.writer_id,
                update.previous_bps.into(),
                update.budget_bps.into(),
            ]
        })
        .fold(digest::START, digest::joined)
}

/// The writers by class and then by id; the Rust keeps them in a HashMap.
pub fn table(allocator: &BudgetAllocator) -> Vec<(WriterId, &WriterInfo)> {
    let mut writers: Vec<_> = allocator.writers().collect();
    writers.sort_by_key(|(id, writer)| (writer.priority.as_u8(), *id));
    writers
}

fn fields((id, writer): (WriterId, &WriterInfo)) -> [u64; 4] {
    [
        id,
        writer.priority.as_u8().into(),
        f32_bits(writer.weight).into(),
        writer.budget_bps.into(),
    ]
}
