//! Lists of calls, each packed into a word as crates/bench_control/src/call.rt reads it.

use crate::random::Random;

/// The calls of a timed list.
const CALLS: u64 = 20_000;
/// The calls of a timed list with 64 writers, which are slow on the Rust.
const CALLS_OF_64: u64 = 4_000;
/// Nanoseconds between two ticks, as the defaults have it, and between two other calls.
const TICK_STEP: u64 = 100_000_000;
const STEP: u64 = 1_600;
/// The least rate of the defaults; from there 2,000 steps of 50,000 lead to the largest.
const LEAST_RATE: u64 = 10_000;
const STEPS_TO_LARGEST: u64 = 2_000;

/// The kinds of calls; a list on a single part has no use for them.
pub const TICK: u64 = 0;
pub const SET_RATE: u64 = 1;
pub const SAMPLE: u64 = 2;
pub const TOS: u64 = 3;
pub const REGISTER: u64 = 4;
pub const EAGAIN: u64 = 5;
pub const SHOW: u64 = 6;
pub const NACKS: u64 = 7;

/// Calls, and what they are made on.
pub struct List {
    pub words: Vec<u64>,
    pub on: Part,
}

#[derive(Clone, Copy)]
pub enum Part {
    /// A controller with the default settings, or with others.
    Controller { other: bool },
    Single(Single),
}

/// A part alone, by the number that bench_control knows it by.
#[derive(Clone, Copy)]
pub enum Single {
    Estimator = 0,
    Processor = 1,
    Decreases = 2,
}

/// The nanoseconds are a multiple of 16.
fn call(kind: u64, number: u64, amount: u64, later: u64) -> u64 {
    kind | number << 4 | amount << 10 | later / 16 << 40
}

fn on_controller(words: Vec<u64>) -> List {
    List { words, on: Part::Controller { other: false } }
}

fn tick() -> u64 {
    tick_after(TICK_STEP)
}

fn tick_after(later: u64) -> u64 {
    call(TICK, 0, 0, later)
}

/// A sample in sixteenths of a millisecond.
fn sample(peer: u64, sixteenths: u64) -> u64 {
    call(SAMPLE, peer, sixteenths, STEP)
}

/// A rate, and a factor in 64ths.
fn decrease(factor: u64, rate: u64) -> u64 {
    call(0, factor, rate, STEP)
}

/// So many peers, each with a first sample of 50 ms; a peer's place is its number.
fn entered(peers: u64) -> impl Iterator<Item = u64> {
    (0..peers).map(|peer| sample(peer, 50 * 16))
}

/// So many writers, of every class in turn.
fn registered(writers: u64) -> impl Iterator<Item = u64> {
    (0..writers).map(|writer| call(REGISTER, writer, writer % 3, STEP))
}

fn shown(peers: u64) -> impl Iterator<Item = u64> {
    (0..peers).map(|peer| call(SHOW, peer, 0, 0))
}

fn timed_calls(writers: u64) -> u64 {
    if writers < 64 {
        CALLS
    } else {
        CALLS_OF_64
    }
}

/// Ticks at the largest rate, so many peers and none of them inflated.
pub fn unchanged(peers: u64) -> List {
    on_controller(entered(peers).chain((0..CALLS).map(|_| tick())).collect())
}

/// Ticks of which nearly each increases the rate; at its largest it is set to the least again.
pub fn changing(writers: u64) -> List {
    let calls = (0..timed_calls(writers)).map(|k| match k % STEPS_TO_LARGEST {
        0 => call(SET_RATE, 0, LEAST_RATE, STEP),
        _ => tick(),
    });
    on_controller(registered(writers).chain(calls).collect())
}

/// Rates from the least to the largest of the defaults, at random.
pub fn rates(writers: u64) -> List {
    let mut random = Random::new(writers);
    let calls = (0..timed_calls(writers)).map(|_| {
        let rate = LEAST_RATE + random.below(100_000_000 - LEAST_RATE);
        call(SET_RATE, 0, rate, STEP)
    });
    on_controller(registered(writers).chain(calls).collect())
}

/// Samples of 20 to 80 ms of so many peers in turn; at the end each peer's average is shown.
pub fn samples(peers: u64) -> List {
    let mut random = Random::new(peers);
    let calls = (0..CALLS).map(|k| sample(k % peers, 320 + random.below(960)));
    on_controller(entered(peers).chain(calls).chain(shown(peers)).collect())
}

/// Samples of 20 to 80 ms.
pub fn estimates() -> List {
    let mut random = Random::new(1);
    let words = (0..CALLS).map(|_| sample(0, 320 + random.below(960))).collect();
    List { words, on: Part::Single(Single::Estimator) }
}

/// TOS bytes: of a hundred one is marked, two are of no ECN, the others ECT(0).
pub fn packets(on: Part) -> List {
    let mut random = Random::new(2);
    let tos = |draw| match draw {
        0 => 3,
        1 | 2 => 0,
        _ => 2,
    };
    let words = (0..CALLS).map(|_| call(TOS, 0, tos(random.below(100)), STEP)).collect();
    List { words, on }
}

/// Rates up to the largest of the defaults, by factors from 1 / 2 to 63 / 64.
pub fn decreases() -> List {
    let mut random = Random::new(3);
    let words = (0..CALLS)
        .map(|_| decrease(32 + random.below(32), random.below(100_000_000)))
        .collect();
    List { words, on: Part::Single(Single::Decreases) }
}

/// Calls of any kind of a controller, or of a single part.
pub fn random(random: &mut Random, calls: usize) -> List {
    match random.below(8) {
        0 => random_single(random, calls, Single::Estimator),
        1 => random_single(random, calls, Single::Processor),
        2 => random_single(random, calls, Single::Decreases),
        draw => random_controller(random, calls, draw % 2 == 0),
    }
}

fn random_single(random: &mut Random, calls: usize, part: Single) -> List {
    let mut word = || match part {
        Single::Estimator => sample(0, random.below(65_536)),
        Single::Processor => call(TOS, 0, random.below(256), STEP),
        Single::Decreases => decrease(random.below(64), random.below(1_000_000_001)),
    };
    let words = (0..calls).map(|_| word()).collect();
    List { words, on: Part::Single(part) }
}

fn random_controller(random: &mut Random, calls: usize, other: bool) -> List {
    let mix = Mix::new(random);
    let mut words: Vec<_> = registered(mix.writers).chain(entered(mix.peers)).collect();
    words.extend((0..calls).map(|_| mix.call(random)));
    words.extend(shown(mix.peers));
    List { words, on: Part::Controller { other } }
}

/// What the random calls of one controller are drawn from.
struct Mix {
    writers: u64,
    peers: u64,
    /// EAGAINs and NACKs of 1,000 calls.
    signals: u64,
    /// How far samples lie apart, in sixteenths of a millisecond: some lists know no inflated peer, others many.
    spread: u64,
}

impl Mix {
    fn new(random: &mut Random) -> Self {
        Self {
            writers: 1 + random.below(64),
            peers: 1 + random.below(64),
            signals: random.below(40),
            spread: 1 + random.below(3_000),
        }
    }

    fn call(&self, random: &mut Random) -> u64 {
        let later = random.below(16_777_216) * 16;
        if random.below(1_000) < self.signals {
            return match random.below(2) {
                0 => call(EAGAIN, 0, 0, 0),
                _ => call(NACKS, 0, random.below(40), 0),
            };
        }
        match random.below(20) {
            0..=9 => tick_after(later),
            10 => call(SET_RATE, 0, random.below(1_000_000_001), later),
            11..=13 => call(TOS, 0, random.below(4) & random.below(4), 0),
            14 => call(REGISTER, random.below(self.writers), random.below(3), 0),
            15 => call(SHOW, random.below(self.peers), 0, 0),
            _ => sample(random.below(self.peers), 640 + random.below(self.spread)),
        }
    }
}
