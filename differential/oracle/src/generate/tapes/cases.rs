//! Tapes that are always the same: document 01's own, its settled examples and the ways a tape breaks off.

use crate::congestion::config::Priority::{self, P0, P1, P2};
use crate::tape::item::Item;

/// In microseconds.
const TICK: u32 = 100_000;

pub fn cases() -> Vec<Vec<u8>> {
    let mut tapes = vec![document(), accident(), full_p1_and_p2()];
    tapes.extend(ends());
    tapes.extend(cut_records());
    tapes.extend(orders());
    tapes.extend(examples());
    tapes.extend(windows());
    tapes
}

/// The whole tape of document 01.
fn document() -> Vec<u8> {
    words(&[
        0x2000_0004,
        0x2000_0009,
        0x3000_0000,
        0x1001_86a0,
        0x4000_0000,
        0x6000_0000,
        0x0000_0000,
    ])
}

fn words(words: &[u32]) -> Vec<u8> {
    words.iter().flat_map(|word| word.to_le_bytes()).collect()
}

fn ended(items: &[Item]) -> Vec<u8> {
    let mut tape: Vec<u8> = items.iter().flat_map(Item::encode).collect();
    tape.extend(Item::End.encode());
    tape
}

fn register(id: u32, class: Priority) -> Item {
    Item::Register { id, class }
}

fn hand_in(class: Priority, key_hash: u64, length: usize) -> Item {
    Item::HandIn {
        pacer: 0,
        class,
        key: [0, if class == P2 { key_hash } else { 0 }],
        bytes: vec![key_hash as u8; length],
    }
}

fn advance(microseconds: u32) -> Item {
    Item::Advance { microseconds }
}

fn rtt(peer: u32, sample_ms: f32) -> Item {
    let bits = sample_ms.to_bits();
    Item::Rtt { peer, bits }
}

const SEND: Item = Item::Send { pacer: 0 };

/// No words at all, a word cut short, an end, an end with more behind it, an unknown kind, a class that there is not.
fn ends() -> Vec<Vec<u8>> {
    vec![
        vec![],
        vec![0],
        vec![0; 2],
        vec![0; 3],
        vec![0; 4],
        words(&[0x0fff_ffff, 0x8000_0000]),
        [words(&[0x4000_0000]), vec![0; 3]].concat(),
        words(&[0x4000_0000]),
        words(&[0x1000_0001, 0x1000_0001]),
        words(&[0x8000_0000, 0]),
        words(&[0xf000_0000, 0]),
        words(&[0x2000_0003, 0]),
        words(&[0x5000_1800, 0]),
        words(&[0x5000_1fff, 0]),
        words(&[0x3000_0003]),
        words(&[0x3000_0003, 0]),
        words(&[0x3000_0003, 0, 0]),
    ]
}

/// A record of 5 bytes whose padding is cut, and one that is too long and cut as well.
fn cut_records() -> Vec<Vec<u8>> {
    let starts = [
        ended(&[register(1, P1), hand_in(P1, 1, 5), SEND]),
        ended(&[register(1, P1), hand_in(P2, 1, 1), SEND]),
        ended(&[register(1, P1), hand_in(P1, 1, 1_473), SEND]),
    ];
    let mut tapes = Vec::new();
    for start in starts {
        let longest = start.len();
        tapes.extend((longest - 13..=longest).map(|length| start[..length].to_vec()));
    }
    tapes
}

/// Which record goes, and with which sequence number.
fn orders() -> Vec<Vec<u8>> {
    // P2 keys A, B, A: A goes with sequence 2, then B with 1.
    let replaced = [hand_in(P2, 1, 3), hand_in(P2, 2, 4), hand_in(P2, 1, 5)];
    // The third of P0 is 12, and P1's record after it has sequence 3.
    let refused = [
        hand_in(P0, 1, 1),
        hand_in(P0, 2, 1),
        hand_in(P0, 3, 1),
        hand_in(P1, 4, 1),
    ];
    // A record of P2 uses up a number of P1's.
    let mixed = [hand_in(P1, 1, 1), hand_in(P2, 2, 1), hand_in(P1, 3, 1)];
    let writer = [register(1, P1)];
    let attempts = again(&[SEND], 5);
    vec![
        ended(&[&writer[..], &replaced, &attempts].concat()),
        ended(&[&writer[..], &refused, &attempts].concat()),
        ended(&[&writer[..], &mixed, &attempts].concat()),
    ]
}

fn examples() -> Vec<Vec<u8>> {
    vec![
        // 1,500 tokens: 1,472 go, 1 ms later there are 38, and 1,472 more wait 143.4 ms.
        ended(&[
            register(1, P1),
            hand_in(P1, 1, 1_472),
            hand_in(P1, 2, 1_472),
            SEND,
            advance(1_000),
            SEND,
            advance(143_400),
            SEND,
        ]),
        // A changed rate with no writers tells 0 updates.
        ended(&[Item::SetRate { rate: 5 }, Item::Eagain, Item::Tick]),
        // Rounding gives three writers of P1 more than their part.
        ended(&[
            register(1, P1),
            register(2, P1),
            register(3, P1),
            Item::SetRate { rate: 17_975_591 },
        ]),
        ended(&[
            register(1, P1),
            hand_in(P1, 1, 1_472),
            hand_in(P1, 2, 1_473),
        ]),
    ]
}

/// Signals that take windows and ticks to show.
fn windows() -> Vec<Vec<u8>> {
    let writer = [register(1, P1)];
    let tick = [advance(TICK), Item::Tick];
    let marks = |tos: u8, count: usize| vec![Item::Tos { tos }; count];
    let inflated = [rtt(1, 100.0), rtt(1, 1_000.0), rtt(1, 1_000.0)];
    let nacks = [Item::Nacks { count: 11 }, advance(1_000_000), Item::Tick];
    let peers: Vec<Item> = (0..66).map(|peer| rtt(peer, 10.0)).collect();
    vec![
        ended(&[&writer[..], &marks(2, 99), &marks(3, 1), &tick].concat()),
        ended(&[&writer[..], &marks(2, 100), &tick].concat()),
        ended(&[&writer[..], &inflated, &again(&tick, 6)].concat()),
        ended(&[&writer[..], &again(&nacks, 8)].concat()),
        ended(&peers),
        // A decrease, recovery and increases.
        ended(&[&writer[..], &[Item::Eagain], &again(&tick, 60)].concat()),
        // A sample of 0 makes any later average inflated for good.
        ended(&[&writer[..], &[rtt(1, 0.0), rtt(1, 1.0)], &again(&tick, 30)].concat()),
    ]
}

fn again(items: &[Item], count: usize) -> Vec<Item> {
    vec![items; count].concat()
}

/// Five of P1 and three new keys of P2: the oldest are pushed out.
fn full_p1_and_p2() -> Vec<u8> {
    let mut items = vec![register(1, P1)];
    items.extend((0..5).map(|number| hand_in(P1, number, number as usize)));
    items.extend((0..3).map(|number| hand_in(P2, number, number as usize)));
    items.extend(vec![SEND; 8]);
    ended(&items)
}

/// A long check-out waits for tokens while every short rack reading goes ahead of it, until later ones push it out.
fn accident() -> Vec<u8> {
    let mut items = vec![register(1, P1)];
    for number in 0..2 {
        items.extend([hand_in(P1, number, 1_472), SEND]);
    }
    for reading in 1..=40 {
        items.push(advance(4_000));
        if reading % 8 == 0 {
            items.push(hand_in(P1, reading, 1_000 + reading as usize));
        }
        items.extend([hand_in(P2, reading, 40), SEND]);
    }
    items.push(SEND);
    ended(&items)
}
