//! Every short tape over a small alphabet, the shorter ones first.

use crate::congestion::config::Priority;
use crate::tape::item::Item;

/// Words that mean something first in an item, and that another item may take as its own.
const WORDS: [u32; 14] = [
    0x0000_0000, // end
    0x1001_86a0, // advance by 100 ms
    0x2000_0004, // register 1 in P0
    0x2000_0009, // register 2 in P1
    0x3000_0000, // EAGAIN
    0x3000_0103, // RTT of peer 1, its sample in the next word
    0x4000_0000, // tick
    0x5000_0000, // hand in no bytes to pacer 0 in P0
    0x5000_0805, // hand in 5 bytes to pacer 0 in P1
    0x5000_1000, // hand in no bytes to pacer 0 in P2, four key words
    0x5000_1801, // a hand-in of no class
    0x6000_0000, // send attempt of pacer 0
    0x7000_4e20, // set rate to 20,000
    0x8000_0000, // no kind
];

/// Words in a row, none of them an end unless the alphabet's own.
pub fn words(count: usize) -> Vec<Vec<u8>> {
    let alphabet: Vec<Vec<u8>> = WORDS
        .iter()
        .map(|word| word.to_le_bytes().to_vec())
        .collect();
    rows(&alphabet, count).collect()
}

/// Whole items on a station with two writers, ended.
pub fn items(count: usize) -> Vec<Vec<u8>> {
    let writers = [
        Item::Register {
            id: 7,
            class: Priority::P1,
        },
        Item::Register {
            id: 3,
            class: Priority::P0,
        },
    ];
    let start: Vec<u8> = writers.iter().flat_map(Item::encode).collect();
    let alphabet: Vec<Vec<u8>> = alphabet().iter().map(Item::encode).collect();
    rows(&alphabet, count)
        .map(|row| [start.clone(), row, Item::End.encode()].concat())
        .collect()
}

fn alphabet() -> [Item; 13] {
    let hand_in = |class, length: usize, key_hash| Item::HandIn {
        pacer: 0,
        class,
        key: [0, key_hash],
        bytes: vec![length as u8; length],
    };
    [
        Item::Advance {
            microseconds: 143_400,
        },
        Item::Eagain,
        Item::Tos { tos: 3 },
        Item::Rtt {
            peer: 1,
            bits: 50f32.to_bits(),
        },
        Item::Tick,
        hand_in(Priority::P0, 100, 0),
        hand_in(Priority::P1, 1_472, 0),
        hand_in(Priority::P2, 30, 1),
        hand_in(Priority::P2, 29, 2),
        Item::Send { pacer: 0 },
        Item::Send { pacer: 2 },
        Item::SetRate { rate: 20_000 },
        Item::Register {
            id: 7,
            class: Priority::P2,
        },
    ]
}

/// The first rows over an alphabet: the empty one, those of one letter, of two, and so on.
fn rows(alphabet: &[Vec<u8>], count: usize) -> impl Iterator<Item = Vec<u8>> + '_ {
    (0..count).map(|number| {
        let (mut number, mut row) = (number, Vec::new());
        // Digits from 1 to the alphabet's length name each row exactly once.
        while number > 0 {
            number -= 1;
            row.push(alphabet[number % alphabet.len()].clone());
            number /= alphabet.len();
        }
        row.reverse();
        row.concat()
    })
}
