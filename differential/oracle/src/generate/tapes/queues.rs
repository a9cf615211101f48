//! Full queues in every class, and keys that come again.

use crate::congestion::config::Priority;
use crate::generate::tapes::draft::{Draft, CLASSES};
use crate::generate::tapes::traffic;
use crate::random::Random;

/// One class after another is filled beyond its limit, partly sent and filled again.
pub fn queues(random: &mut Random) -> Vec<u8> {
    let writers = random.between(1, 4);
    let mut draft = Draft::with_writers(random, writers);
    let rounds = draft.random.between(1, 6);
    for _ in 0..rounds {
        let pacer = draft.pacer();
        let class = draft.random.pick(&CLASSES);
        let count = draft.random.between(1, 7);
        for key_hash in 0..count {
            let length = short(draft.random);
            draft.hand_in(pacer, class, [5, key_hash], length);
        }
        let attempts = draft.random.below(9);
        for _ in 0..attempts {
            draft.send(pacer);
        }
        if draft.random.percent(30) {
            traffic::advance(&mut draft);
        }
    }
    draft.ended()
}

/// Mostly so short that a bucket has tokens for many.
fn short(random: &mut Random) -> u64 {
    if random.percent(85) {
        random.below(20)
    } else {
        random.between(300, 1_472)
    }
}

/// Keys whose halves differ in one bit, told apart or replaced.
const KEYS: [[u64; 2]; 7] = [
    [0, 0],
    [1, 0],
    [0, 1],
    [1 << 32, 0],
    [0, 1 << 63],
    [u64::MAX, u64::MAX],
    [0xcbf2_9ce4_8422_2325, 0x0100_0000_01b3],
];

/// P2 with few keys, so that many records replace another; some attempts between.
pub fn keys(random: &mut Random) -> Vec<u8> {
    let mut draft = Draft::with_writers(random, 2);
    let count = draft.random.between(3, 25);
    let kinds = draft.random.between(2, KEYS.len() as u64) as usize;
    for _ in 0..count {
        let (pacer, key) = (draft.pacer(), draft.random.pick(&KEYS[..kinds]));
        let length = short(draft.random);
        draft.hand_in(pacer, Priority::P2, key, length);
        if draft.random.percent(25) {
            draft.send(pacer);
        }
        if draft.random.percent(10) {
            draft.hand_in(pacer, Priority::P1, [0; 2], length);
        }
    }
    for _ in 0..4 {
        let pacer = draft.pacer();
        draft.send(pacer);
    }
    draft.ended()
}
