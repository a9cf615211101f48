//! A tape's items: words that are decoded, and encoded again for making tapes.

use crate::congestion::config::Priority;
use crate::play::pacer::class;

pub const END: u32 = 0;
pub const ADVANCE: u32 = 1;
pub const REGISTER: u32 = 2;
pub const SIGNAL: u32 = 3;
pub const TICK: u32 = 4;
pub const HAND_IN: u32 = 5;
pub const SEND: u32 = 6;
pub const SET_RATE: u32 = 7;

/// The signals, by bits 0-1 of their word.
pub const EAGAIN: u32 = 0;
pub const TOS: u32 = 1;
pub const NACKS: u32 = 2;
pub const RTT: u32 = 3;

/// The class that no word may name.
const NO_CLASS: u32 = 3;

#[derive(Clone, Debug, PartialEq)]
pub enum Item {
    End,
    Advance {
        microseconds: u32,
    },
    Register {
        id: u32,
        class: Priority,
    },
    Eagain,
    Tos {
        tos: u8,
    },
    Nacks {
        count: u32,
    },
    Rtt {
        peer: u32,
        bits: u32,
    },
    Tick,
    HandIn {
        pacer: u32,
        class: Priority,
        /// Topic hash and key hash, 0 but in P2.
        key: [u64; 2],
        bytes: Vec<u8>,
    },
    Send {
        pacer: u32,
    },
    SetRate {
        rate: u32,
    },
}

impl Item {
    pub fn name(&self) -> &'static str {
        match self {
            Item::End => "end",
            Item::Advance { .. } => "advance",
            Item::Register { .. } => "register",
            Item::Eagain => "EAGAIN",
            Item::Tos { .. } => "TOS",
            Item::Nacks { .. } => "NACKs",
            Item::Rtt { .. } => "RTT",
            Item::Tick => "tick",
            Item::HandIn { .. } => "hand-in",
            Item::Send { .. } => "send",
            Item::SetRate { .. } => "set rate",
        }
    }

    /// The item as a tape has it, with every unused bit 0.
    pub fn encode(&self) -> Vec<u8> {
        match self {
            Item::End => word(END, 0),
            Item::Advance { microseconds } => word(ADVANCE, *microseconds),
            Item::Register { id, class } => word(REGISTER, id << 2 | u32::from(class.as_u8())),
            Item::Eagain => word(SIGNAL, EAGAIN),
            Item::Tos { tos } => word(SIGNAL, u32::from(*tos) << 8 | TOS),
            Item::Nacks { count } => word(SIGNAL, count << 8 | NACKS),
            Item::Rtt { peer, bits } => {
                let mut bytes = word(SIGNAL, peer << 8 | RTT);
                bytes.extend(bits.to_le_bytes());
                bytes
            }
            Item::Tick => word(TICK, 0),
            Item::HandIn {
                pacer,
                class,
                key,
                bytes,
            } => encode_hand_in(*pacer, *class, *key, bytes),
            Item::Send { pacer } => word(SEND, *pacer),
            Item::SetRate { rate } => word(SET_RATE, *rate),
        }
    }
}

/// A word's bytes; a value that is too wide loses its upper bits.
fn word(kind: u32, value: u32) -> Vec<u8> {
    (kind << 28 | value & 0x0fff_ffff).to_le_bytes().to_vec()
}

fn encode_hand_in(pacer: u32, class: Priority, key: [u64; 2], record: &[u8]) -> Vec<u8> {
    let number = u32::from(class.as_u8());
    let mut bytes = word(HAND_IN, pacer << 13 | number << 11 | record.len() as u32);
    if class == Priority::P2 {
        bytes.extend(key.iter().flat_map(|half| half.to_le_bytes()));
    }
    bytes.extend(record);
    bytes.resize(bytes.len().next_multiple_of(4), 0);
    bytes
}

/// The item that starts at a word and how many words it has. None where the item is broken: an unknown kind or class, a
/// word that is missing or short, or nothing at all where an end should be.
pub fn decode(tape: &[u8], index: usize) -> Option<(Item, usize)> {
    let head = whole_word(tape, index)?;
    let value = head & 0x0fff_ffff;
    let one_word = |item| Some((item, 1));
    match head >> 28 {
        END => one_word(Item::End),
        ADVANCE => one_word(Item::Advance {
            microseconds: value,
        }),
        REGISTER => one_word(Item::Register {
            id: value >> 2,
            class: known_class(value & 3)?,
        }),
        SIGNAL => signal(tape, index, value),
        TICK => one_word(Item::Tick),
        HAND_IN => hand_in(tape, index, value),
        SEND => one_word(Item::Send { pacer: value & 3 }),
        SET_RATE => one_word(Item::SetRate { rate: value }),
        _ => None,
    }
}

fn signal(tape: &[u8], index: usize, value: u32) -> Option<(Item, usize)> {
    let above = value >> 8;
    Some(match value & 3 {
        EAGAIN => (Item::Eagain, 1),
        TOS => (Item::Tos { tos: above as u8 }, 1),
        NACKS => (Item::Nacks { count: above }, 1),
        _ => {
            let bits = whole_word(tape, index + 1)?;
            (Item::Rtt { peer: above, bits }, 2)
        }
    })
}

fn hand_in(tape: &[u8], index: usize, value: u32) -> Option<(Item, usize)> {
    let length = (value & 0x7ff) as usize;
    let class = known_class(value >> 11 & 3)?;
    let key_words = if class == Priority::P2 { 4 } else { 0 };
    let words = 1 + key_words + length.div_ceil(4);
    let rest = tape.get(4 * (index + 1)..4 * (index + words))?;
    let (key_bytes, padded) = rest.split_at(4 * key_words);
    let mut key = [0; 2];
    for (half, bytes) in key.iter_mut().zip(key_bytes.chunks_exact(8)) {
        *half = u64::from_le_bytes(bytes.try_into().expect("a chunk of 8"));
    }
    let item = Item::HandIn {
        pacer: value >> 13 & 3,
        class,
        key,
        bytes: padded[..length].to_vec(),
    };
    Some((item, words))
}

/// None where the tape has no such word, or only some bytes of it.
fn whole_word(tape: &[u8], index: usize) -> Option<u32> {
    let bytes = tape.get(4 * index..4 * index + 4)?;
    Some(u32::from_le_bytes(bytes.try_into().expect("four bytes")))
}

fn known_class(number: u32) -> Option<Priority> {
    (number != NO_CLASS).then(|| class(number.into()))
}
