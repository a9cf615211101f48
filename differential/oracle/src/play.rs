//! Plays a script on the Rust. The numbers of document 01 are worked out here, since the Rust has none; whatever a
//! call does once it is accepted is the Rust's.

use std::io::{self, Read, Write};
use std::sync::atomic::{AtomicU64, Ordering};

use crate::line::Lines;
use crate::script::{read_record, Record};

mod allocator;
mod bucket;
pub mod coalescing;
pub mod config;
pub mod controller;
mod ecn;
mod numeric;
pub mod pacer;
mod peers;
pub mod pool;
mod queue;
pub mod rate;
mod rtt;
pub mod scorer;
mod station;

/// Lines are written out once there are this many bytes of them.
const WRITTEN_AT: usize = 1 << 16;

/// The record that is being played, for the message where the Rust panics.
static PLAYED: AtomicU64 = AtomicU64::new(0);

#[derive(Default)]
struct Player {
    config: config::Config,
    ecn: ecn::Ecn,
    rtt: rtt::Rtt,
    peers: peers::Peers,
    bucket: bucket::Bucket,
    bytes: coalescing::Bytes,
    pool: pool::Pool,
    queue: queue::Queue,
    pacer: pacer::Pacer,
    rate: rate::Rate,
    scorer: scorer::Scorer,
    allocator: allocator::Allocator,
    controller: controller::Controller,
    station: station::Station,
}

impl Player {
    fn play(&mut self, record: Record, lines: &mut Lines) {
        lines.begin(record.operation);
        match record.operation {
            16..=25 => numeric::play(record, lines),
            32..=34 => self.config.play(record, lines),
            48..=51 => self.ecn.play(record, lines),
            64..=67 => self.rtt.play(record, lines),
            80..=83 => self.peers.play(record, lines),
            96..=103 => self.bucket.play(record, lines),
            112..=119 => self.bytes.play(record, lines),
            120..=122 => self.pool.play(record, lines),
            128..=132 => self
                .queue
                .play(record, self.bytes.bytes(), &mut self.pool, lines),
            144..=149 => self.pacer.play(
                record,
                self.config.settings(),
                self.bytes.bytes(),
                &mut self.pool,
                lines,
            ),
            160..=163 => self.rate.play(record, lines),
            176..=182 => self.scorer.play(record, self.config.settings(), lines),
            192..=198 => self.allocator.play(record, self.config.settings(), lines),
            208..=217 => self.controller.play(record, self.config.settings(), lines),
            224..=236 => self.station.play(
                record,
                self.config.settings(),
                self.bytes.bytes(),
                &mut self.pool,
                lines,
            ),
            _ => {}
        }
        lines.end();
    }
}

/// Answers each record of `script` by a line.
pub fn play(mut script: impl Read, mut output: impl Write) -> io::Result<()> {
    name_record_on_panic();
    let mut player = Player::default();
    let mut lines = Lines::default();
    while let Some(record) = read_record(&mut script)? {
        player.play(record, &mut lines);
        PLAYED.fetch_add(1, Ordering::Relaxed);
        if lines.text().len() >= WRITTEN_AT {
            output.write_all(lines.text())?;
            lines.clear();
        }
    }
    output.write_all(lines.text())?;
    output.flush()
}

fn name_record_on_panic() {
    std::panic::set_hook(Box::new(|panic| {
        let record = PLAYED.load(Ordering::Relaxed);
        eprintln!("oracle: the Rust panicked at record {record}: {panic}");
    }));
}
