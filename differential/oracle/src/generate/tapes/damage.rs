//! Tapes that break off, and bytes that were never a tape.

use crate::generate::tapes::draft::Draft;
use crate::generate::tapes::traffic;
use crate::random::Random;
use crate::tape::item::{HAND_IN, REGISTER};

/// Short tapes, each cut at every byte.
pub fn cut(random: &mut Random, count: usize) -> Vec<Vec<u8>> {
    let mut tapes = Vec::new();
    while tapes.len() < count {
        let steps = random.between(1, 12);
        let mut whole = traffic::written(random, steps).ended();
        whole.truncate(300);
        tapes.extend((0..whole.len()).map(|length| whole[..length].to_vec()));
    }
    tapes.truncate(count);
    tapes
}

/// A whole tape with some bits, bytes or words changed.
pub fn damaged(random: &mut Random) -> Vec<u8> {
    let steps = random.between(4, 40);
    let mut tape = traffic::written(random, steps).ended();
    let changes = random.pick(&[1, 1, 1, 2, 3, 8]);
    for _ in 0..changes {
        change(random, &mut tape);
    }
    tape
}

fn change(random: &mut Random, tape: &mut Vec<u8>) {
    if tape.is_empty() {
        return;
    }
    let place = random.below(tape.len() as u64) as usize;
    let word = place / 4 * 4;
    match random.below(8) {
        0..=2 => tape[place] ^= 1 << random.below(8),
        3..=4 => tape[place] = random.word() as u8,
        // The kind of a word.
        5 => tape[(word + 3).min(place)] = random.word() as u8,
        6 => {
            tape.remove(place);
        }
        _ => tape.insert(place, random.word() as u8),
    }
}

/// A kind or a class that there is not, somewhere in a whole tape.
pub fn unknown(random: &mut Random) -> Vec<u8> {
    let steps = random.between(0, 12);
    let mut draft = traffic::written(random, steps);
    let kind = draft.random.between(8, 15) as u32;
    let low = draft.random.word() as u32;
    let word = match draft.random.below(4) {
        0 => REGISTER << 28 | (low & 0x0fff_fffc) | 3,
        1 => HAND_IN << 28 | (low & 0x0fff_ffff) | 3 << 11,
        _ => kind << 28 | (low & 0x0fff_ffff),
    };
    draft.push_word(word);
    let after = draft.random.below(6);
    for _ in 0..after {
        traffic::step(&mut draft);
    }
    draft.ended()
}

/// Random words, most of a known kind, or random bytes.
pub fn noise(random: &mut Random) -> Vec<u8> {
    if random.percent(20) {
        let length = random.below(200);
        return (0..length).map(|_| random.word() as u8).collect();
    }
    let mut draft = Draft::with_writers(random, 2);
    let count = draft.random.between(1, 60);
    for _ in 0..count {
        let kind = draft.random.between(1, 7) as u32;
        let value = draft.random.word() as u32 & 0x0fff_ffff;
        // Short records, so that words after them are reached.
        let value = if kind == HAND_IN {
            value & !0x7e0
        } else {
            value
        };
        draft.push_word(kind << 28 | value);
    }
    draft.unended()
}
