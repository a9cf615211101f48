//! The ends of tables, ranges, lengths, rates and of the clock.

use crate::congestion::config::Priority;
use crate::generate::tapes::draft::{Draft, CLASSES};
use crate::generate::tapes::traffic;
use crate::random::Random;
use crate::tape::item::Item;

/// The largest value of a word.
const LARGEST: u64 = 0x0fff_ffff;

/// Five writers and more, ids that are known, pacers that nobody has.
pub fn writers(random: &mut Random) -> Vec<u8> {
    let mut draft = Draft::new(random);
    let count = draft.random.between(1, 9);
    for _ in 0..count {
        let class = draft.class();
        let id = draft.random.below(6) as u32;
        draft.register(id, class);
        for pacer in 0..4 {
            if draft.random.percent(40) {
                let class = draft.class();
                draft.hand_in(pacer, class, [0; 2], 1);
            }
            if draft.random.percent(40) {
                draft.send(pacer);
            }
        }
        if draft.random.percent(50) {
            let rate = draft.random.of_bits(28) as u32;
            draft.push(Item::SetRate { rate });
        }
    }
    draft.ended()
}

/// 64 peers, and those that no longer find a place.
pub fn peers(random: &mut Random) -> Vec<u8> {
    let mut draft = Draft::with_writers(random, 2);
    let step = draft.random.pick(&[1, 3, 16_000]);
    let entered = draft.random.between(62, 68) as u32;
    for peer in 0..entered {
        let sample = traffic::sample(draft.random);
        draft.rtt(peer * step, sample);
    }
    for _ in 0..20 {
        let peer = draft.random.below(70) as u32 * step;
        let sample = traffic::sample(draft.random);
        draft.rtt(peer, sample);
        if draft.random.percent(40) {
            draft.tick_after(100_000);
        }
    }
    draft.ended()
}

/// Bits of RTT samples within, at and beyond the range.
const SAMPLE_BITS: [u32; 24] = [
    0x0000_0000, // 0
    0x8000_0000, // -0
    0x0000_0001, // the smallest above 0
    0x8000_0001, // the largest below 0
    0x007f_ffff, // the largest subnormal
    0x0080_0000, // the smallest normal
    0x3f80_0000, // 1
    0xbf80_0000, // -1
    0x42c8_0000, // 100
    0x4348_0000, // 200
    0x4974_23ff, // just below 1,000,000
    0x4974_2400, // 1,000,000
    0x4974_2401, // just above 1,000,000
    0xc974_2400, // -1,000,000
    0x7f7f_ffff, // the largest
    0xff7f_ffff, // the smallest
    0x7f80_0000, // infinity
    0xff80_0000, // -infinity
    0x7fc0_0000, // NaN
    0xffc0_0000,
    0x7f80_0001,
    0x7fff_ffff,
    0xff80_0001,
    0xffff_ffff,
];

/// Samples of every sort with ticks between; some are inflated for good.
pub fn samples(random: &mut Random) -> Vec<u8> {
    let mut draft = Draft::with_writers(random, 2);
    let count = draft.random.between(4, 40);
    for _ in 0..count {
        let peer = draft.random.below(3) as u32;
        let bits = match draft.random.below(10) {
            0..=4 => draft.random.pick(&SAMPLE_BITS),
            5 => draft.random.word() as u32,
            _ => traffic::sample(draft.random).to_bits(),
        };
        draft.push(Item::Rtt { peer, bits });
        if draft.random.percent(40) {
            draft.tick_after(100_000);
        }
    }
    draft.ended()
}

/// Records of the lengths at the ends, in every class, to pacers with and without a writer.
pub fn lengths(random: &mut Random) -> Vec<u8> {
    const LENGTHS: [u64; 12] = [0, 1, 2, 3, 4, 5, 1_471, 1_472, 1_473, 1_500, 2_046, 2_047];
    let writers = random.between(1, 3);
    let mut draft = Draft::with_writers(random, writers);
    let count = draft.random.between(2, 10);
    for _ in 0..count {
        let (class, key) = (draft.class(), draft.key());
        let (pacer, length) = (draft.random.below(4), draft.random.pick(&LENGTHS));
        draft.hand_in(pacer, class, key, length);
        if draft.random.percent(60) {
            let pacer = draft.pacer();
            draft.send(pacer);
        }
        if draft.random.percent(40) {
            traffic::advance(&mut draft);
        }
    }
    draft.ended()
}

/// The ends of a word, of the settings and of f32.
const RATES: [u64; 16] = [
    0,
    1,
    999,
    1_000,
    9_999,
    10_000,
    10_001,
    14_285,
    15_000,
    50_000,
    16_777_216,
    16_777_219,
    17_975_591,
    99_999_999,
    100_000_001,
    LARGEST,
];

/// Rates at and beside these ends, with writers that come between.
pub fn rates(random: &mut Random) -> Vec<u8> {
    let mut draft = Draft::new(random);
    let count = draft.random.between(3, 14);
    for turn in 0..count {
        if draft.random.percent(40) {
            let class = draft.class();
            draft.register(turn as u32, class);
        }
        let center = draft.random.pick(&RATES);
        let rate = match draft.random.below(4) {
            0 => draft.random.near(center).min(LARGEST),
            1 => draft.random.of_bits(28),
            _ => center,
        };
        draft.push(Item::SetRate { rate: rate as u32 });
        if draft.random.percent(60) {
            traffic::hand_in(&mut draft);
            let pacer = draft.pacer();
            draft.send(pacer);
        }
        if draft.random.percent(30) {
            draft.push(Item::Eagain);
            draft.tick_after(100_000);
        }
    }
    draft.ended()
}

/// Large advances: the bucket is credited hours, and windows long past end at one tick.
pub fn clock(random: &mut Random) -> Vec<u8> {
    let writers = random.between(1, 4);
    let mut draft = Draft::with_writers(random, writers);
    let count = draft.random.between(3, 20);
    for _ in 0..count {
        let run = draft.random.pick(&[1, 1, 1, 5, 100]);
        for _ in 0..run {
            let microseconds = draft
                .random
                .pick(&[LARGEST, LARGEST - 1, 1 << 27, 60_000_000]);
            draft.advance(microseconds);
        }
        let pacer = draft.pacer();
        let class = draft.random.pick(&CLASSES);
        draft.hand_in(pacer, class, [1, 1], 1_472);
        draft.send(pacer);
        traffic::waiting(&mut draft, pacer);
        if draft.random.percent(50) {
            traffic::signal(&mut draft);
            draft.push(Item::Tick);
        }
    }
    draft.hand_in(0, Priority::P1, [0; 2], 1);
    draft.ended()
}
