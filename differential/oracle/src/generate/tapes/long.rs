//! Tapes about as long as the player reads, 65,536 bytes, and longer.

use crate::congestion::config::Priority;
use crate::generate::tapes::draft::Draft;
use crate::generate::tapes::traffic;
use crate::random::Random;
use crate::tape::item::Item;
use crate::tape::READ_BYTES;

pub fn long(random: &mut Random) -> Vec<u8> {
    let short_words = random.percent(50);
    let mut draft = Draft::with_writers(random, 4);
    // The end stands up to 6 words before or after the last that is read.
    let words = draft.random.between(0, 12) as usize;
    let length = READ_BYTES - 24 + 4 * words;
    while draft.len() + 4 * 500 < length {
        if short_words {
            brief(&mut draft);
        } else {
            traffic::step(&mut draft);
        }
    }
    // What is left takes a record that may reach beyond the last word that is read.
    if draft.random.percent(30) {
        draft.hand_in(0, Priority::P1, [0; 2], 1_400);
    }
    while draft.len() < length {
        brief(&mut draft);
    }
    let after = draft.random.below(3);
    let mut tape = draft.ended();
    tape.extend(vec![0x40; 1_000 * after as usize]);
    tape
}

/// An item of one word.
fn brief(draft: &mut Draft) {
    match draft.random.below(8) {
        0..=2 => {
            let pacer = draft.pacer();
            draft.send(pacer);
        }
        3 => traffic::advance(draft),
        4 => {
            draft.push(Item::Eagain);
        }
        5 => {
            let tos = draft.random.word() as u8;
            draft.push(Item::Tos { tos });
        }
        6 => {
            let count = draft.random.below(4) as u32;
            draft.push(Item::Nacks { count });
        }
        _ => {
            draft.push(Item::Tick);
        }
    }
}
