//! Storms of signals with ticks between them, and the calm after.

use crate::generate::tapes::draft::Draft;
use crate::generate::tapes::traffic;
use crate::random::Random;
use crate::tape::item::Item;

const ECT0: u8 = 2;
const ECT1: u8 = 1;
const CE: u8 = 3;

/// Some storms, each of one kind, with calm spells in which the rate recovers.
pub fn storms(random: &mut Random) -> Vec<u8> {
    let writers = random.between(0, 4);
    let mut draft = Draft::with_writers(random, writers);
    let count = draft.random.between(1, 4);
    for _ in 0..count {
        match draft.random.below(5) {
            0 => eagains(&mut draft),
            1 => nacks(&mut draft),
            2 => marks(&mut draft),
            3 => inflated(&mut draft),
            _ => mixed(&mut draft),
        }
        if draft.random.percent(60) {
            calm(&mut draft);
        }
    }
    draft.ended()
}

/// Mostly the usual tick, else one near the end of a cooldown, a stable window or a NACK window.
fn tick(draft: &mut Draft) {
    let microseconds = if draft.random.percent(70) {
        100_000
    } else {
        let center = draft.random.pick(&[100_000, 300_000, 1_000_000]);
        draft.random.near(center)
    };
    draft.tick_after(microseconds);
    if draft.random.percent(30) {
        traffic::hand_in(draft);
        let pacer = draft.pacer();
        draft.send(pacer);
    }
}

fn eagains(draft: &mut Draft) {
    let ticks = draft.random.between(1, 12);
    for _ in 0..ticks {
        let count = draft.random.below(4);
        for _ in 0..count {
            draft.push(Item::Eagain);
        }
        tick(draft);
    }
}

/// About as many as the threshold of 10 in a second.
fn nacks(draft: &mut Draft) {
    let ticks = draft.random.between(3, 25);
    for _ in 0..ticks {
        let count = draft.random.pick(&[0, 1, 5, 9, 10, 11, 0xf_ffff]);
        draft.push(Item::Nacks { count });
        tick(draft);
    }
}

/// Windows of 100 packets with about one mark in each.
fn marks(draft: &mut Draft) {
    let windows = draft.random.between(1, 3);
    for _ in 0..windows {
        let marked = draft.random.below(103);
        for packet in 0..100 {
            let tos = match packet == marked {
                true => CE,
                false => draft.random.pick(&[ECT0, ECT0, ECT0, ECT1]),
            };
            let upper = draft.random.word() as u8 & 0xfc;
            draft.push(Item::Tos { tos: upper | tos });
        }
        if draft.random.percent(30) {
            draft.push(Item::Tos { tos: 0 });
        }
        tick(draft);
    }
}

/// A peer whose average is more than twice its least.
fn inflated(draft: &mut Draft) {
    let peer = draft.random.below(3) as u32;
    draft.rtt(peer, 10.0);
    let ticks = draft.random.between(3, 12);
    for _ in 0..ticks {
        let sample = draft.random.between(10, 200) as f32;
        draft.rtt(peer, sample);
        tick(draft);
    }
}

fn mixed(draft: &mut Draft) {
    let ticks = draft.random.between(2, 20);
    for _ in 0..ticks {
        let count = draft.random.below(4);
        for _ in 0..count {
            traffic::signal(draft);
        }
        tick(draft);
    }
}

/// Ticks without signals, some long enough for increases.
fn calm(draft: &mut Draft) {
    let ticks = draft.random.between(5, 40);
    for _ in 0..ticks {
        tick(draft);
    }
}
