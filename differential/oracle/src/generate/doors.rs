//! Requests to the C functions.

use crate::doors::Request;
use crate::generate::coalescing::PUBLISHED;
use crate::generate::rate::{factors, refused_factors, RATES};
use crate::generate::tapes;
use crate::generate::values::RATE_LIMIT;
use crate::random::Random;

/// The longest tape, and the longest bytes to hash, of a short request.
const SHORT: usize = 240;

/// About `count` requests: a quarter are hashes, half are decreases, a quarter tapes.
pub fn requests(count: usize, seed: u64, short: bool) -> Vec<Request> {
    let random = &mut Random::new(seed, "doors");
    let mut requests = hashes(random, count / 4, short);
    requests.extend(decreases(random, count / 2));
    requests.extend(tapes_of_every_kind(count / 4, seed, short));
    requests
}

/// The published vectors, then bytes of many lengths.
fn hashes(random: &mut Random, count: usize, short: bool) -> Vec<Request> {
    let published = PUBLISHED.iter().map(|(bytes, _)| bytes.to_vec());
    let longest = if short { SHORT } else { 20_000 };
    let bytes = |_| {
        let length = match random.below(4) {
            0 => random.below(longest as u64 + 1),
            _ => random.below(40),
        };
        (0..length).map(|_| random.word() as u8).collect()
    };
    let others: Vec<Vec<u8>> = (0..count.saturating_sub(PUBLISHED.len()))
        .map(bytes)
        .collect();
    published.chain(others).map(Request::KeyHash).collect()
}

/// The settled example at factor 1.0, then rates, factors and least rates at the ends of their ranges and beyond.
fn decreases(random: &mut Random, count: usize) -> Vec<Request> {
    let one = 1f32.to_bits();
    let settled = [16_777_216, 16_777_217, 16_777_218, 16_777_219].map(|rate| Request::Decrease {
        rate,
        factor: one,
        least: 1,
    });
    let others = (settled.len()..count).map(|_| decrease(random));
    let others: Vec<Request> = others.collect();
    settled.into_iter().chain(others).collect()
}

fn decrease(random: &mut Random) -> Request {
    let rate = match random.below(10) {
        0..=5 => random.pick(&RATES),
        6 => random.pick(&[0, RATE_LIMIT + 1, u32::MAX.into()]),
        _ => random.of_bits(30),
    };
    let least = match random.below(10) {
        0..=3 => 1,
        4..=5 => random.below(rate + 1),
        6 => rate,
        7 => rate + 1,
        8 => 0,
        _ => 10_000,
    };
    let factor = match random.below(10) {
        0..=4 => random.pick(&factors()),
        5 => random.pick(&refused_factors()),
        6 => random.word(),
        _ => (random.unit() as f32).to_bits().into(),
    };
    Request::Decrease {
        rate: rate as u32,
        factor: factor as u32,
        least: least as u32,
    }
}

fn tapes_of_every_kind(count: usize, seed: u64, short: bool) -> Vec<Request> {
    let kinds: Vec<usize> = (0..tapes::KINDS.len()).collect();
    // Of many tapes some of every kind are short.
    let made = tapes::generate(&kinds, if short { 40 * count } else { count }, seed);
    let fitting: Vec<Vec<u8>> = made
        .into_iter()
        .map(|tape| tape.bytes)
        .filter(|tape| !short || tape.len() <= SHORT)
        .collect();
    let step = (fitting.len() / count.max(1)).max(1);
    fitting
        .into_iter()
        .step_by(step)
        .map(Request::TapeRun)
        .collect()
}
