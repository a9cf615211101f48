//! The tracker of peers: few peers, many, and more than there is room for.

use crate::generate::rtt::{edge_samples, make, refused_samples, time_and_sample, Samples};
use crate::generate::times::{at_call_limit, Times};
use crate::generate::values::*;
use crate::operation::*;
use crate::random::Random;
use crate::script::Script;

pub fn boundary(script: &mut Script) {
    script.call(PEERS_NEW, &[bits(100.0)]);
    script.call(PEERS_SHOW, &[0]);
    refused_enter_nothing(script);
    fill(script);
    for place in [0, 1, 62, 63, 64, 65, u64::MAX] {
        script.call(PEERS_SHOW, &[place]);
    }
    order_of_numbers(script);
    news(script);
}

fn refused_enter_nothing(script: &mut Script) {
    for sample in refused_samples() {
        script.call(PEERS_UPDATE, &[0, 9, sample]);
    }
    script.call(PEERS_UPDATE, &[TIME_LIMIT + 1, 9, bits(1.0)]);
    script.call(PEERS_UPDATE, &[u64::MAX, 9, bits(1.0)]);
}

/// 64 peers, the largest and smallest id among them; the 65th is turned down, those known go on.
fn fill(script: &mut Script) {
    script.call(PEERS_UPDATE, &[1, u32::MAX.into(), bits(10.0)]);
    for id in 0..63 {
        script.call(PEERS_UPDATE, &[id + 1, id, bits(id as f32)]);
    }
    for id in [63, 1 << 31, (1 << 32) - 2] {
        script.call(PEERS_UPDATE, &[64, id, bits(5.0)]);
    }
    // 2^32 is id 0, and -1 the largest
    for id in [1 << 32, u64::MAX, u32::MAX.into(), 0, 62] {
        script.call(PEERS_UPDATE, &[64, id, bits(50.0)]);
    }
    script.call(PEERS_UPDATE, &[65, 30, bits(30.0)]);
    script.call(PEERS_UPDATE, &[65, 30, bits(900.0)]);
}

/// 4, 7, 17, 11, and 14 last.
fn order_of_numbers(script: &mut Script) {
    let unknown = 1000;
    script.call(PEERS_UPDATE, &[TIME_LIMIT + 1, unknown, u64::from(NAN)]);
    script.call(PEERS_UPDATE, &[TIME_LIMIT + 1, unknown, bits(1.0)]);
    script.call(PEERS_UPDATE, &[1, unknown, bits(1.0)]);
    script.call(PEERS_UPDATE, &[66, unknown, bits(1.0)]);
    script.call(PEERS_CALLS, &[CALL_LIMIT]);
    script.call(PEERS_UPDATE, &[66, unknown, u64::from(NAN)]);
    script.call(PEERS_UPDATE, &[TIME_LIMIT + 1, unknown, bits(1.0)]);
    script.call(PEERS_UPDATE, &[1, unknown, bits(1.0)]);
    script.call(PEERS_UPDATE, &[66, 3, bits(1.0)]);
    script.call(PEERS_CALLS, &[CALL_LIMIT - 1]);
    script.call(PEERS_UPDATE, &[66, unknown, bits(1.0)]);
    script.call(PEERS_UPDATE, &[66, 3, bits(1.0)]);
    script.call(PEERS_UPDATE, &[66, 3, bits(1.0)]);
    script.call(PEERS_CALLS, &[u64::MAX]);
    script.call(PEERS_UPDATE, &[66, 3, bits(1.0)]);
    script.call(PEERS_CALLS, &[5]);
    script.call(PEERS_UPDATE, &[TIME_LIMIT, 3, bits(1.0)]);
    script.call(PEERS_UPDATE, &[TIME_LIMIT - 1, 3, bits(1.0)]);
}

fn news(script: &mut Script) {
    for default in edge_samples().into_iter().chain(refused_samples()) {
        script.call(PEERS_NEW, &[default]);
        script.call(PEERS_UPDATE, &[3, 8, bits(2.0)]);
    }
    script.call(PEERS_UPDATE, &[3, 8, bits(200.0)]);
    script.call(PEERS_SHOW, &[0]);
    script.call(PEERS_SHOW, &[1]);
}

/// Ids of one kind: `count` of them, `stride` apart.
pub struct Ids {
    count: u64,
    stride: u64,
    first: u64,
}

impl Ids {
    fn new(random: &mut Random) -> Self {
        let count = random.pick(&[1, 2, 5, 10, 63, 64, 65, 66, 90, 300]);
        Self::of(random, count)
    }

    pub fn of(random: &mut Random, count: u64) -> Self {
        Self {
            count,
            stride: random.pick(&[1, 1, 1 << 20, 0x9e37_79b1]),
            first: random.pick(&[0, 1, u32::MAX as u64]),
        }
    }

    pub fn next(&self, random: &mut Random) -> u64 {
        let id = self.stride * random.below(self.count) + self.first;
        widened(random, id & u64::from(u32::MAX), 32)
    }
}

pub fn episode(script: &mut Script, random: &mut Random, length: u64) {
    let mut samples = Samples::new(random);
    make(script, random, PEERS_NEW, &mut samples);
    let mut times = Times::new(random);
    let ids = Ids::new(random);
    for _ in 0..length + ids.count.min(length) {
        call(script, random, &mut times, &mut samples, &ids);
    }
    if random.percent(20) {
        at_call_limit(script, random, PEERS_CALLS, |script, random| {
            call(script, random, &mut times, &mut samples, &ids)
        });
    }
}

fn call(
    script: &mut Script,
    random: &mut Random,
    times: &mut Times,
    samples: &mut Samples,
    ids: &Ids,
) {
    if random.percent(4) {
        let place = random.below(70);
        script.call(PEERS_SHOW, &[widened(random, place, 6)]);
        return;
    }
    let (time, sample) = time_and_sample(random, times, samples);
    let id = ids.next(random);
    script.call(PEERS_UPDATE, &[time, id, sample]);
}
