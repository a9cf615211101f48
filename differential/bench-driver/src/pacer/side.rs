//! The three sides that a list is run on. Each gives a checksum of what every call answers.

use crate::clock;
use crate::congestion::coalescing::InstanceKey;
use crate::congestion::config::{CongestionConfig, Priority};
use crate::congestion::writer_pacer::{EnqueueError, SendAction, WriterPacer};
use crate::measure::{mix, Sides};
use crate::random::Random;

use super::list::List;

/// The slots of four pacers under the default settings, of 1,472 bytes each.
const POOL_BYTES: usize = 4 * (100 + 500 + 100) * 1_472;
/// A record is up to 1,472 bytes from one of 64 places on.
const RECORD_BYTES: usize = 1_472 + 64;

extern "C" {
    fn bench_parts(
        list: *const u64,
        calls: usize,
        pool: *mut u8,
        pool_length: usize,
        bytes: *const u8,
        length: usize,
        rate_bps: u32,
    ) -> u64;
    fn bench_whole(
        list: *const u64,
        calls: usize,
        pool: *mut u8,
        pool_length: usize,
        bytes: *const u8,
        length: usize,
        rate_bps: u32,
    ) -> u64;
}

/// What the sides are lent: the pool of the proved pacers, and the bytes that records are taken from.
pub struct Bench {
    pool: Vec<u8>,
    bytes: Vec<u8>,
}

impl Bench {
    pub fn new() -> Self {
        let mut random = Random::new(0);
        Self {
            pool: vec![0; POOL_BYTES],
            bytes: (0..RECORD_BYTES).map(|_| random.below(256) as u8).collect(),
        }
    }

    /// The Rust on so many pacers: four as `parts`, one as `whole`.
    fn rust_on(&self, list: &List, count: u64) -> u64 {
        clock::set(0);
        let mut pacers: Vec<_> = (0..count)
            .map(|_| WriterPacer::with_rate(CongestionConfig::default(), list.rate_bps))
            .collect();
        let (mut time, mut sum) = (0, 0);
        for (k, &word) in list.words.iter().enumerate() {
            time += word / 17_592_186_044_416;
            clock::set(time);
            let pacer = &mut pacers[(word / 16 % 4 % count) as usize];
            sum = if word % 16 == 0 {
                let start = k % 64;
                let sample = &self.bytes[start..start + (word / 4_096 % 65_536) as usize];
                mix(sum, handed(pacer, word, sample))
            } else {
                mix_action(mix(sum, 0), pacer.try_send())
            };
        }
        sum
    }
}

impl Sides for Bench {
    type List = List;

    fn calls(list: &List) -> usize {
        list.words.len()
    }

    /// Four pacers.
    fn parts(&mut self, list: &List) -> u64 {
        let (words, pool, bytes) = (&list.words, &mut self.pool, &self.bytes);
        // Each slice goes as its start and its length; the pool is lent to this call alone.
        unsafe {
            bench_parts(
                words.as_ptr(),
                words.len(),
                pool.as_mut_ptr(),
                pool.len(),
                bytes.as_ptr(),
                bytes.len(),
                list.rate_bps,
            )
        }
    }

    /// One pacer.
    fn whole(&mut self, list: &List) -> Option<u64> {
        let (words, pool, bytes) = (&list.words, &mut self.pool, &self.bytes);
        // As in `parts`.
        let sum = unsafe {
            bench_whole(
                words.as_ptr(),
                words.len(),
                pool.as_mut_ptr(),
                pool.len(),
                bytes.as_ptr(),
                bytes.len(),
                list.rate_bps,
            )
        };
        Some(sum)
    }

    /// Four pacers, as `parts`.
    fn rust(&mut self, list: &List) -> u64 {
        self.rust_on(list, 4)
    }

    fn assert_agreed(&mut self, list: &List) {
        assert_eq!(self.parts(list), self.rust_on(list, 4), "four pacers on parts, and the Rust's");
        assert_eq!(self.whole(list), Some(self.rust_on(list, 1)), "one pacer by value, and the Rust's");
    }
}

/// A hand-in; the Rust takes a Vec, so the record is copied here. The answer is document 01's number.
fn handed(pacer: &mut WriterPacer, word: u64, sample: &[u8]) -> u64 {
    let data = sample.to_vec();
    let answer = match word / 256 % 16 {
        0 => pacer.enqueue(data, Priority::P0),
        1 => pacer.enqueue(data, Priority::P1),
        _ => pacer.enqueue_p2_keyed(data, InstanceKey::new(7, word / 268_435_456 % 65_536)),
    };
    match answer {
        Ok(()) => 0,
        Err(EnqueueError::QueueFull) => 12,
        Err(EnqueueError::Disabled) => 13,
        Err(EnqueueError::Timeout) => u64::MAX,
    }
}

fn mix_action(sum: u64, action: SendAction) -> u64 {
    match action {
        SendAction::Send(sample) => {
            let class = match sample.priority {
                Priority::P0 => 0,
                Priority::P1 => 1,
                Priority::P2 => 2,
            };
            let last = sample.data.last().map_or(0, |&byte| u64::from(byte));
            let length = sample.data.len() as u64;
            mix(mix(mix(mix(sum, class), sample.sequence), length), last)
        }
        SendAction::Empty => mix(sum, 3),
        SendAction::RateLimited { wait_time } => mix(mix(sum, 4), wait_time.as_nanos() as u64),
    }
}
