//! Runs a tape's items on a station.

use crate::congestion::coalescing::InstanceKey;
use crate::congestion::config::{CongestionConfig, EcnMode, Priority};
use crate::congestion::writer_pacer::SendAction;
use crate::refusal;
use crate::station::{Handed, Station, Updates};
use crate::tape::item::{decode, Item};

/// The clock stops here.
const LAST_TIME: u64 = 1 << 63;
const NANOSECONDS_PER_MICROSECOND: u64 = 1_000;

/// What a line says of a word of kinds 2 to 7, or of a tape that breaks off.
#[derive(Debug)]
pub struct Line {
    pub index: usize,
    /// None where the tape breaks off.
    pub item: Option<&'static str>,
    pub reply: Reply,
}

/// An item's answer and its fields.
#[derive(Debug)]
pub struct Reply {
    pub answer: u64,
    pub fields: Fields,
}

#[derive(Debug)]
pub enum Fields {
    None,
    /// Whether a mark signals congestion.
    Signal(bool),
    /// None where a tick did not change the rate.
    Updates(Option<Updates>),
    Send(SendAction),
}

/// A station, its pool and its clock, as a tape finds them.
pub struct Runner {
    station: Station,
    pool: Vec<u8>,
    /// In nanoseconds.
    clock: u64,
}

impl Runner {
    pub fn new() -> Self {
        let station =
            Station::new(&settings(), 0).expect("the tape's settings are within the domain");
        Self {
            pool: vec![0; station.pool_bytes()],
            station,
            clock: 0,
        }
    }

    /// The reply to an item; none to an advance and an end.
    pub fn run(&mut self, item: &Item) -> Option<Reply> {
        let (time, station) = (self.clock, &mut self.station);
        Some(match item {
            Item::End => return None,
            Item::Advance { microseconds } => {
                self.advance(*microseconds);
                return None;
            }
            Item::Register { id, class } => bare(station.register(time, (*id).into(), *class)),
            Item::Eagain => bare(station.eagain(time)),
            Item::Tos { tos } => {
                let (answer, signals) = station.tos(time, *tos);
                reply(answer, Fields::Signal(signals))
            }
            Item::Nacks { count } => bare(station.nacks(time, *count)),
            Item::Rtt { peer, bits } => bare(station.rtt(time, *peer, f32::from_bits(*bits))),
            Item::Tick => updates(station.tick(time)),
            Item::HandIn {
                pacer,
                class,
                key,
                bytes,
            } => self.hand_in(*pacer, *class, *key, bytes),
            Item::Send { pacer } => {
                let (answer, action) = station.send(time, *pacer as usize, &self.pool);
                reply(answer, Fields::Send(action))
            }
            Item::SetRate { rate } => updates(station.set_rate(time, *rate)),
        })
    }

    fn advance(&mut self, microseconds: u32) {
        let nanoseconds = u64::from(microseconds) * NANOSECONDS_PER_MICROSECOND;
        self.clock = self.clock.saturating_add(nanoseconds).min(LAST_TIME);
    }

    fn hand_in(&mut self, pacer: u32, class: Priority, key: [u64; 2], bytes: &[u8]) -> Reply {
        let [topic_hash, key_hash] = key;
        let record = Handed {
            class,
            key: InstanceKey::new(topic_hash, key_hash),
            bytes,
        };
        let pool = &mut self.pool;
        bare(
            self.station
                .hand_in(self.clock, pacer as usize, &record, pool),
        )
    }
}

/// The defaults, with short queues and ECN where it is to be had.
fn settings() -> CongestionConfig {
    CongestionConfig {
        ecn_mode: EcnMode::Opportunistic,
        ..CongestionConfig::default().with_queue_sizes(2, 4, 2)
    }
}

fn updates((answer, updates): (u64, Option<Updates>)) -> Reply {
    reply(answer, Fields::Updates(updates))
}

fn bare(answer: u64) -> Reply {
    reply(answer, Fields::None)
}

/// An item that is turned down has no fields.
fn reply(answer: u64, fields: Fields) -> Reply {
    let fields = match answer {
        refusal::ACCEPTED => fields,
        _ => Fields::None,
    };
    Reply { answer, fields }
}

/// The lines of a tape, which ends at its end or breaks off at the item that is broken.
pub fn run(tape: &[u8]) -> Vec<Line> {
    let mut runner = Runner::new();
    let mut lines = Vec::new();
    let mut index = 0;
    while let Some((item, words)) = decode(tape, index) {
        if item == Item::End {
            return lines;
        }
        if let Some(reply) = runner.run(&item) {
            lines.push(Line {
                index,
                item: Some(item.name()),
                reply,
            });
        }
        index += words;
    }
    lines.push(Line {
        index,
        item: None,
        reply: bare(refusal::TAPE),
    });
    lines
}
