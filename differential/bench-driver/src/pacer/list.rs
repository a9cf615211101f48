//! Lists of calls, each packed into a word as crates/bench/src/call.rt reads it.

use crate::random::Random;

/// The calls of a timed list.
const CALLS: u64 = 20_000;
/// A rate that never makes a record of a timed list wait.
const AMPLE_RATE: u32 = 1_000_000_000;
/// The nanoseconds between two calls, where nothing else is said.
const STEP: u64 = 1_000;

/// Calls, and the rate in bytes per second that every pacer is made with.
pub struct List {
    pub words: Vec<u64>,
    pub rate_bps: u32,
}

pub fn hand_in(pacer: u64, class: u64, length: u64, key: u64, later: u64) -> u64 {
    pacer << 4 | class << 8 | length << 12 | key << 28 | later << 44
}

pub fn send(pacer: u64, later: u64) -> u64 {
    1 | pacer << 4 | later << 44
}

/// P1 hand-ins alone: after the first 500 each pushes out the oldest.
pub fn full_ring(length: u64) -> List {
    let words = (0..CALLS).map(|_| hand_in(0, 1, length, 0, STEP)).collect();
    List { words, rate_bps: AMPLE_RATE }
}

/// A hand-in and a send in turn; each P2 record has a key of its own.
pub fn hand_in_and_send(class: u64, length: u64) -> List {
    let words = (0..CALLS / 2)
        .flat_map(|key| [hand_in(0, class, length, key, STEP), send(0, STEP)])
        .collect();
    List { words, rate_bps: AMPLE_RATE }
}

/// P2 hand-ins to so many keys in turn: after the first of each key every one replaces.
pub fn replacing(keys: u64) -> List {
    let words = (0..CALLS).map(|k| hand_in(0, 2, 64, k % keys, STEP)).collect();
    List { words, rate_bps: AMPLE_RATE }
}

pub fn empty() -> List {
    List { words: vec![send(0, STEP); CALLS as usize], rate_bps: AMPLE_RATE }
}

/// The bucket of 1,500 tokens is emptied, then each send is told to wait.
pub fn wait_told(length: u64) -> List {
    let waiting = 1_500 / length + 1;
    let mut words = vec![hand_in(0, 1, length, 0, 0); waiting as usize];
    words.resize(CALLS as usize, send(0, 10));
    List { words, rate_bps: 10_000 }
}

/// Hand-ins of every class to four pacers, P2 under ten keys, and nearly as many sends; the last third must often wait.
pub fn mixed(length: u64) -> List {
    let mut random = Random::new(length);
    let words = (0..CALLS)
        .map(|_| {
            let (pacer, later) = (random.below(4), random.below(STEP));
            if random.below(20) < 11 {
                hand_in(pacer, random.below(3), length, random.below(10), later)
            } else {
                send(pacer, later)
            }
        })
        .collect();
    List { words, rate_bps: (1_000_000 * length / 64) as u32 }
}

/// Calls of any kind, length and key, at a rate that may be short or ample.
pub fn random(random: &mut Random, calls: usize) -> List {
    let keys = 1 + random.below(200);
    let hand_ins = 5 + random.below(10);
    let step = 1 + random.below(100_000);
    let words = (0..calls)
        .map(|_| {
            let (pacer, later) = (random.below(4), random.below(step));
            if random.below(20) < hand_ins {
                hand_in(pacer, random.below(3), random.below(1_473), random.below(keys), later)
            } else {
                send(pacer, later)
            }
        })
        .collect();
    let rate_bps = 10u32.pow(3 + random.below(7) as u32);
    List { words, rate_bps }
}
