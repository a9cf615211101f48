//! Slow pacers: waits are told, and tried again just before they are over, at their end and later.

use crate::congestion::config::Priority;
use crate::generate::tapes::draft::Draft;
use crate::generate::tapes::traffic;
use crate::random::Random;
use crate::tape::item::Item;

/// In nanoseconds.
const MICROSECOND: u64 = 1_000;

/// Shares of these are at the slowest rate or some times above it.
const RATES: [u32; 8] = [
    0, 10_000, 14_000, 20_000, 33_333, 60_000, 250_000, 1_000_003,
];

pub fn waits(random: &mut Random) -> Vec<u8> {
    let writers = random.between(1, 3);
    let mut draft = Draft::with_writers(random, writers);
    let rounds = draft.random.between(1, 5);
    for _ in 0..rounds {
        if draft.random.percent(50) {
            let rate = draft.random.pick(&RATES);
            draft.push(Item::SetRate { rate });
        }
        let pacer = draft.pacer();
        emptied(&mut draft, pacer);
        if let Some(wait) = draft.told_wait(pacer) {
            tried_again(&mut draft, pacer, wait);
        }
    }
    draft.ended()
}

/// Records that take more tokens than a bucket has.
fn emptied(draft: &mut Draft, pacer: u64) {
    if draft.random.percent(30) {
        // P0 goes whatever the tokens are, and leaves none.
        draft.hand_in(pacer, Priority::P0, [0; 2], 1_472);
        draft.hand_in(pacer, Priority::P0, [0; 2], 1_472);
        draft.send(pacer);
        draft.send(pacer);
    }
    let class = draft.random.pick(&[Priority::P1, Priority::P2]);
    for key_hash in 0..2 {
        let length = draft.random.between(700, 1_472);
        draft.hand_in(pacer, class, [9, key_hash], length);
        draft.send(pacer);
    }
}

/// The clock tells microseconds, so that a wait ends between two of them as a rule.
fn tried_again(draft: &mut Draft, pacer: u64, wait: u64) {
    let whole = wait / MICROSECOND;
    let ended = wait.div_ceil(MICROSECOND);
    match draft.random.below(7) {
        // Exactly at its end, or the first microsecond after it.
        0 | 1 => draft.advance(ended),
        // The last microsecond before it, then the one after.
        2 => {
            draft.advance(whole.saturating_sub(1));
            draft.send(pacer);
            draft.advance(ended - whole.saturating_sub(1));
        }
        // Two halves with an attempt between: a credit of whole bytes moves the refill time.
        3 => {
            draft.advance(ended / 2);
            draft.send(pacer);
            draft.advance(ended - ended / 2);
        }
        // A change of the rate in the middle.
        4 => {
            draft.advance(ended / 2);
            traffic::set_rate(draft);
            draft.advance(ended - ended / 2);
        }
        // Attempts that are too early by far, a microsecond apart.
        5 => {
            for _ in 0..3 {
                draft.advance(1);
                draft.send(pacer);
            }
            draft.advance(ended);
        }
        _ => draft.advance(ended + 1 + whole / 3),
    }
    draft.send(pacer);
    draft.send(pacer);
}
