//! Whole tapes with a bit of everything.

use crate::congestion::config::Priority;
use crate::generate::tapes::draft::Draft;
use crate::random::Random;
use crate::tape::item::Item;

const LONGEST: u64 = 1_472;
/// In microseconds.
const ADVANCES: [u64; 10] = [
    0, 1, 100, 1_000, 29_600, 100_000, 143_400, 300_000, 1_000_000, 1_100_000,
];
const RATES: [u64; 8] = [
    0,
    1,
    10_000,
    25_000,
    60_000,
    1_000_000,
    16_777_217,
    100_000_000,
];

/// Up to some 120 items that are all well formed, most of them accepted.
pub fn valid(random: &mut Random) -> Vec<u8> {
    let longest = if random.percent(80) { 40 } else { 120 };
    let steps = random.between(5, longest);
    written(random, steps).ended()
}

/// As many steps of traffic on a station with writers.
pub fn written(random: &mut Random, steps: u64) -> Draft<'_> {
    let writers = random.pick(&[1, 1, 2, 2, 3, 4]);
    let mut draft = Draft::with_writers(random, writers);
    if draft.random.percent(30) {
        set_rate(&mut draft);
    }
    for _ in 0..steps {
        step(&mut draft);
    }
    draft
}

pub fn step(draft: &mut Draft) {
    match draft.random.below(100) {
        0..=31 => hand_in(draft),
        32..=63 => {
            let pacer = draft.pacer();
            draft.send(pacer);
        }
        64..=75 => advance(draft),
        76..=83 => draft.tick_after(100_000),
        84..=93 => signal(draft),
        94..=96 => set_rate(draft),
        97 => register(draft),
        _ => burst(draft),
    }
}

fn register(draft: &mut Draft) {
    let (id, class) = (draft.id(), draft.class());
    draft.register(id, class);
}

/// Several records for one pacer, then as many attempts.
fn burst(draft: &mut Draft) {
    let (pacer, count) = (draft.pacer(), draft.random.between(2, 6));
    for _ in 0..count {
        let (class, key) = (draft.class(), draft.key());
        let length = length(draft.random);
        draft.hand_in(pacer, class, key, length);
    }
    for _ in 0..count {
        draft.send(pacer);
    }
}

pub fn hand_in(draft: &mut Draft) {
    let (pacer, class, key) = (draft.pacer(), draft.class(), draft.key());
    let length = length(draft.random);
    draft.hand_in(pacer, class, key, length);
}

/// Mostly short; a bucket holds a long one and no second.
pub fn length(random: &mut Random) -> u64 {
    match random.below(100) {
        0..=64 => random.below(40),
        65..=84 => random.between(40, 400),
        85..=96 => random.between(400, LONGEST),
        97..=98 => LONGEST,
        _ => LONGEST + 1,
    }
}

pub fn advance(draft: &mut Draft) {
    let microseconds = if draft.random.percent(70) {
        draft.random.pick(&ADVANCES)
    } else {
        draft.random.of_bits(22)
    };
    draft.advance(microseconds);
}

pub fn set_rate(draft: &mut Draft) {
    let rate = if draft.random.percent(70) {
        draft.random.pick(&RATES)
    } else {
        draft.random.of_bits(28)
    };
    draft.push(Item::SetRate { rate: rate as u32 });
}

pub fn signal(draft: &mut Draft) {
    let item = match draft.random.below(10) {
        0..=2 => Item::Eagain,
        3..=5 => Item::Tos {
            tos: draft.random.word() as u8,
        },
        6..=7 => Item::Nacks {
            count: draft.random.of_bits(20) as u32,
        },
        _ => Item::Rtt {
            peer: draft.random.below(4) as u32,
            bits: sample(draft.random).to_bits(),
        },
    };
    draft.push(item);
}

/// An RTT sample within its range.
pub fn sample(random: &mut Random) -> f32 {
    if random.percent(50) {
        random.between(1, 500) as f32
    } else {
        (random.unit() * 1_000_000.0) as f32
    }
}

/// A station whose P1 waits: a long record that went and one that did not.
pub fn waiting(draft: &mut Draft, pacer: u64) {
    for _ in 0..2 {
        draft.hand_in(pacer, Priority::P1, [0; 2], LONGEST);
    }
    draft.send(pacer);
}
