//! The station.

use crate::congestion::coalescing::InstanceKey;
use crate::congestion::config::CongestionConfig;
use crate::digest;
use crate::line::{f32_bits, Lines};
use crate::operation::*;
use crate::play::numeric::f32_of;
use crate::play::pacer::{action_fields, class, NO_ACTION};
use crate::play::pool::Pool;
use crate::play::{allocator, controller, pacer, peers};
use crate::refusal;
use crate::script::Record;
use crate::station::{self, Handed, Updates, Writer, MAX_PACERS};

/// Fields of a station line behind the answer.
const FIELDS: usize = 43;

/// Fields of a pacer that a line shows of each place of the roster.
const PLACE_FIELDS: usize = 22;
/// The bucket stands first among them, and P0's forced sends last.
const BUCKET_FIELDS: usize = 4;

pub struct Station {
    station: station::Station,
}

impl Default for Station {
    fn default() -> Self {
        let settings = CongestionConfig::default().with_queue_sizes(1, 1, 1);
        let station = station::Station::new(&settings, 0).expect("the settings are accepted");
        Self { station }
    }
}

/// What a call tells beside the state.
struct Told {
    answer: u64,
    told: u64,
    action: [u64; 6],
    updates: Updates,
}

impl Told {
    fn answer(answer: u64) -> Self {
        Self {
            answer,
            told: 0,
            action: NO_ACTION,
            updates: Updates::new(),
        }
    }

    fn signal((answer, signal): (u64, bool)) -> Self {
        Self {
            told: signal.into(),
            ..Self::answer(answer)
        }
    }

    fn budgets((answer, updates): (u64, Option<Updates>)) -> Self {
        Self {
            told: updates.is_some().into(),
            updates: updates.unwrap_or_default(),
            ..Self::answer(answer)
        }
    }
}

impl Station {
    pub fn play(
        &mut self,
        record: Record,
        config: &CongestionConfig,
        bytes: &[u8],
        pool: &mut Pool,
        lines: &mut Lines,
    ) {
        let a = record.arguments[0];
        let told = match record.operation {
            STATION_NEW => match station::Station::new(config, a) {
                Ok(station) => {
                    self.station = station;
                    Told::answer(refusal::ACCEPTED)
                }
                Err(answer) => return refused(answer, lines),
            },
            STATION_CALLS => {
                self.station.ledger.calls = a;
                Told::answer(refusal::ACCEPTED)
            }
            STATION_PLACE => return lines.numbers(&self.place(a as usize % MAX_PACERS)),
            STATION_CONTROLLER => return lines.numbers(&self.controller()),
            _ => self.call(record, bytes, pool),
        };
        self.line(told, pool, lines);
    }

    fn call(&mut self, record: Record, bytes: &[u8], pool: &mut Pool) -> Told {
        let [a, b, c, d, e] = record.arguments;
        let station = &mut self.station;
        match record.operation {
            STATION_REGISTER => Told::answer(station.register(a, b, class(c))),
            STATION_EAGAIN => Told::answer(station.eagain(a)),
            STATION_TOS => Told::signal(station.tos(a, b as u8)),
            STATION_NACKS => Told::answer(station.nacks(a, b as u32)),
            STATION_RTT => Told::answer(station.rtt(a, b as u32, f32_of(c))),
            STATION_TICK => Told::budgets(station.tick(a)),
            STATION_SET_RATE => Told::budgets(station.set_rate(a, b as u32)),
            STATION_HAND_IN => {
                let handed = Handed {
                    class: class(c),
                    key: InstanceKey::new(d, e),
                    bytes,
                };
                Told::answer(station.hand_in(a, pacer_number(b), &handed, pool.lent_mut()))
            }
            _ => {
                let (answer, action) = station.send(a, pacer_number(b), pool.lent());
                Told {
                    action: action_fields(&action),
                    ..Told::answer(answer)
                }
            }
        }
    }

    fn line(&self, told: Told, pool: &Pool, lines: &mut Lines) {
        let Self { station } = self;
        lines.numbers(&[told.answer, told.told]);
        lines.numbers(&told.action);
        lines.numbers(&[station.ledger.calls, station.ledger.last]);
        lines.number(station.controller.current_rate());
        lines.number(f32_bits(station.controller.score()));
        lines.number(station.writers.len() as u64);
        lines.numbers(&self.budgets());
        for place in 0..MAX_PACERS {
            self.place_fields(place, lines);
        }
        lines.number(digest::of(&self.controller()));
        lines.number(allocator::updates_digest(&told.updates));
        lines.number(self.waiting_bytes(pool));
    }

    /// Of the writers by class and then by id; 0 where there is none.
    fn budgets(&self) -> [u64; MAX_PACERS] {
        let mut budgets = [0; MAX_PACERS];
        let table = allocator::table(self.station.controller.allocator());
        for (budget, (_, writer)) in budgets.iter_mut().zip(table) {
            *budget = writer.budget_bps.into();
        }
        budgets
    }

    /// The bucket, P0's forced sends, and the digest of all that `place` shows.
    fn place_fields(&self, place: usize, lines: &mut Lines) {
        let shown = self.place(place);
        let pacer = &shown[2..2 + PLACE_FIELDS];
        lines.numbers(&pacer[..BUCKET_FIELDS]);
        lines.number(pacer[PLACE_FIELDS - 1]);
        lines.number(digest::of(&shown));
    }

    /// A place of the roster: its number, the writer's id, the pacer and the digest of what waits.
    fn place(&self, place: usize) -> Vec<u64> {
        let mut shown = vec![place as u64];
        match self.station.writers.get(place) {
            None => {
                shown.extend([0; 1 + PLACE_FIELDS]);
                shown.push(digest::START);
            }
            Some(writer) => {
                shown.push(writer.id);
                shown.extend(pacer::fields(&writer.pacer));
                shown.push(pacer::waiting(&writer.pacer));
            }
        }
        shown
    }

    /// The controller and the digests of its tables.
    fn controller(&self) -> Vec<u64> {
        let controller = &self.station.controller;
        let mut shown = controller::fields(controller);
        shown.push(allocator::writers_digest(controller.allocator()));
        shown.push(peers::digest(controller.rtt_tracker(), &self.station.peers));
        shown
    }

    /// The digest of the digests of every waiting record's bytes.
    fn waiting_bytes(&self, pool: &Pool) -> u64 {
        let writers = self.station.writers.iter();
        writers
            .flat_map(|writer| waiting_records(writer, pool))
            .fold(digest::START, digest::joined)
    }
}

fn pacer_number(word: u64) -> usize {
    usize::from(word as u8)
}

/// A refused making shows nothing, and the earlier station stays.
fn refused(answer: u64, lines: &mut Lines) {
    lines.number(answer);
    lines.numbers(&[0; FIELDS]);
}

/// The digest of each waiting record's bytes, P0's, P1's, then P2's, each from its head.
fn waiting_records(writer: &Writer, pool: &Pool) -> Vec<u64> {
    let first = writer.pacer.waiting_p0().iter().map(|sample| &sample.data);
    let second = writer.pacer.waiting_p1().iter().map(|sample| &sample.data);
    let third = writer.pacer.p2().waiting().map(|sample| &sample.data);
    let lists: [Vec<&Vec<u8>>; 3] = [first.collect(), second.collect(), third.collect()];
    let mut digests = Vec::new();
    for (list, slots) in lists.iter().zip(&writer.slots) {
        for (place, bytes) in list.iter().enumerate() {
            pool.must_hold(slots.waiting(list.len(), place), bytes);
            digests.push(digest::of_bytes(bytes));
        }
    }
    digests
}
