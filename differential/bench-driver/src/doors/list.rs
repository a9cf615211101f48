//! The inputs of the C functions: tapes, keys, and rates with factors.

use crate::congestion::config::Priority::{self, P0, P1, P2};
use crate::random::Random;
use crate::tape::item::{decode, Item};

/// About so many words, bytes or calls of an input are run in one timed run.
const WORDS: usize = 4_000;
/// The words of a tape with long records.
pub const LONG_WORDS: usize = 64_000;
const KEY_BYTES: usize = 65_536;
const DECREASES: u64 = 20_000;
/// The largest rate of the defaults, at which only long records must wait now and then.
const AMPLE_RATE: u32 = 100_000_000;
const LONGEST: u64 = 1_472;
/// In microseconds.
const TICK: u32 = 100_000;

pub enum Input {
    /// A tape, how many items it has, and how often it is played in one timed run.
    Tape { tape: Vec<u8>, items: usize, times: usize },
    /// The bytes of a key, and how often they are hashed in one timed run.
    Key { bytes: Vec<u8>, times: usize },
    Decreases(Vec<Decrease>),
    /// A key or decreases, on the Rust too behind a C function, which is not compiled into the loop that calls it.
    Called(Box<Input>),
}

pub struct Decrease {
    pub rate: u32,
    pub factor: f32,
    pub least: u32,
}

impl Input {
    /// What is counted, and how much of it one timed run has.
    pub fn units(&self) -> (&'static str, usize) {
        match self {
            Input::Tape { tape, times, .. } => ("word", tape.len().div_ceil(4) * times),
            Input::Key { bytes, times } => ("byte", bytes.len() * times),
            Input::Decreases(decreases) => ("call", decreases.len()),
            Input::Called(input) => input.units(),
        }
    }

    /// How many items before the end one timed run has; only tapes have any.
    pub fn items(&self) -> usize {
        match self {
            Input::Tape { items, times, .. } => items * times,
            _ => 0,
        }
    }
}

/// A tape, played as often as it takes to come to some thousand words, and no more than some hundred times.
pub fn tape(tape: Vec<u8>) -> Input {
    let times = (WORDS / (tape.len() / 4 + 1)).clamp(1, 500);
    Input::Tape { items: items(&tape), tape, times }
}

/// The items before the end, or before the one that is broken.
fn items(tape: &[u8]) -> usize {
    let (mut count, mut place) = (0, 0);
    while let Some((item, words)) = decode(tape, place) {
        if item == Item::End {
            break;
        }
        count += 1;
        place += words;
    }
    count
}

/// A tape in the making.
#[derive(Default)]
struct Draft {
    bytes: Vec<u8>,
}

impl Draft {
    /// Four writers, of every class and one more of P1, at the largest rate.
    fn with_writers() -> Self {
        let mut draft = Self::default();
        for (id, class) in [(1, P0), (2, P1), (3, P2), (4, P1)] {
            draft.push(Item::Register { id, class });
        }
        draft.push(Item::SetRate { rate: AMPLE_RATE });
        draft
    }

    fn push(&mut self, item: Item) {
        self.bytes.extend(item.encode());
    }

    fn words(&self) -> usize {
        self.bytes.len() / 4
    }

    fn advance(&mut self, microseconds: u32) {
        self.push(Item::Advance { microseconds });
    }

    /// A record of any class for any pacer, P2 under one of four keys.
    fn hand_in(&mut self, random: &mut Random, length: u64) {
        let class = any_class(random);
        let key = if class == P2 { [7, random.below(4)] } else { [0; 2] };
        let bytes = any_bytes(random, length as usize);
        let pacer = any_pacer(random);
        self.push(Item::HandIn { pacer, class, key, bytes });
    }

    fn send(&mut self, random: &mut Random) {
        let pacer = any_pacer(random);
        self.push(Item::Send { pacer });
    }

    /// A signal; where it is calm, NACKs and TOS bytes that tell no congestion.
    fn signal(&mut self, random: &mut Random, storms: bool) {
        self.push(match (random.below(4), storms) {
            (0, true) => Item::Eagain,
            (1, true) => Item::Nacks { count: random.below(20) as u32 },
            (2, true) => Item::Tos { tos: 3 },
            (0, false) => Item::Nacks { count: 1 },
            _ => Item::Tos { tos: 2 },
        });
    }

    fn tick(&mut self) {
        self.advance(TICK);
        self.push(Item::Tick);
    }

    /// Signals of congestion, and more bytes for a pacer than it may send.
    fn storm(&mut self, random: &mut Random) {
        self.push(Item::Eagain);
        (0..4).for_each(|_| self.signal(random, true));
        let pacer = any_pacer(random);
        for _ in 0..2 {
            let bytes = any_bytes(random, LONGEST as usize);
            self.push(Item::HandIn { pacer, class: P1, key: [0; 2], bytes });
        }
        (0..6).for_each(|_| self.push(Item::Send { pacer }));
    }

    /// Signals that tell no congestion, a short record, and sends.
    fn calm(&mut self, random: &mut Random) {
        (0..2).for_each(|_| self.signal(random, false));
        self.hand_in(random, 40);
        (0..2).for_each(|_| self.send(random));
    }

    fn sample(&mut self, random: &mut Random, peers: u64) {
        let (peer, ms) = (random.below(peers) as u32, 20.0 + random.below(960) as f32 / 16.0);
        self.push(Item::Rtt { peer, bits: ms.to_bits() });
    }

    /// Hand-ins and nearly as many sends, with an advance now and then, until there are so many words.
    fn fill(&mut self, random: &mut Random, words: usize, length: impl Fn(&mut Random) -> u64) {
        while self.words() < words {
            match random.below(20) {
                0 => self.advance(100),
                1..=10 => {
                    let length = length(random);
                    self.hand_in(random, length);
                }
                _ => self.send(random),
            }
        }
    }

    fn ended(mut self) -> Input {
        self.push(Item::End);
        tape(self.bytes)
    }
}

fn any_class(random: &mut Random) -> Priority {
    [P0, P1, P2][random.below(3) as usize]
}

fn any_pacer(random: &mut Random) -> u32 {
    random.below(4) as u32
}

/// A tape of one word: a station is set up, and that is all.
pub fn end() -> Input {
    Draft::default().ended()
}

/// The whole tape of document 01.
pub fn document() -> Input {
    let words = [0x2000_0004u32, 0x2000_0009, 0x3000_0000, 0x1001_86a0, 0x4000_0000, 0x6000_0000, 0];
    tape(words.iter().flat_map(|word| word.to_le_bytes()).collect())
}

/// Hand-ins of every class and sends over four pacers, each record of one length.
pub fn busy(length: u64, words: usize) -> Input {
    let mut draft = Draft::with_writers();
    draft.fill(&mut Random::new(length), words, |_| length);
    draft.ended()
}

/// The same with records of 0 to 255 bytes.
pub fn growing(words: usize) -> Input {
    let mut draft = Draft::with_writers();
    draft.fill(&mut Random::new(1), words, |random| random.below(256));
    draft.ended()
}

/// Spells of 48 ticks, a tenth of a second apart. A spell begins at a low rate and with a storm, in which the rate goes down and sends must wait;
/// at its end the rate rises with each tick.
pub fn congested() -> Input {
    let random = &mut Random::new(2);
    let mut draft = Draft::with_writers();
    while draft.words() < LONG_WORDS {
        draft.push(Item::SetRate { rate: 40_000 });
        for tick in 0..48 {
            if tick < 6 {
                draft.storm(random);
            } else {
                draft.calm(random);
            }
            draft.tick();
        }
    }
    draft.ended()
}

/// Samples of 20 to 80 ms of 64 peers, and a tick after each hundred.
pub fn samples() -> Input {
    let random = &mut Random::new(3);
    let mut draft = Draft::with_writers();
    while draft.words() < WORDS {
        (0..100).for_each(|_| draft.sample(random, 64));
        draft.tick();
    }
    draft.ended()
}

/// Ticks at the largest rate, none of which changes it.
pub fn ticks() -> Input {
    let mut draft = Draft::with_writers();
    while draft.words() < WORDS {
        draft.tick();
    }
    draft.ended()
}

/// Rate settings at random, and after each some ticks that raise the rate; each tells an update of all four writers.
pub fn rates() -> Input {
    let random = &mut Random::new(4);
    let mut draft = Draft::with_writers();
    (0..20).for_each(|_| draft.tick());
    while draft.words() < WORDS {
        draft.push(Item::SetRate { rate: 10_000 + random.below(90_000_000) as u32 });
        (0..3).for_each(|_| draft.tick());
    }
    draft.ended()
}

pub fn key(length: usize) -> Input {
    Input::Key { bytes: any_bytes(&mut Random::new(5), length), times: KEY_BYTES / length }
}

/// Rates up to the largest, by factors from 1 / 2 to 63 / 64.
pub fn decreases() -> Input {
    let random = &mut Random::new(6);
    let any = |_| Decrease {
        rate: 10_000 + random.below(999_990_001) as u32,
        factor: (32 + random.below(32)) as f32 / 64.0,
        least: 10_000,
    };
    Input::Decreases((0..DECREASES).map(any).collect())
}

pub fn called(input: Input) -> Input {
    Input::Called(Box::new(input))
}

fn any_bytes(random: &mut Random, length: usize) -> Vec<u8> {
    (0..length).map(|_| random.below(256) as u8).collect()
}

/// A tape with items of every kind, words of any kind, a key, and rates with factors below 1.
pub fn random(random: &mut Random) -> [Input; 4] {
    let length = random.below(3_000) as usize;
    let key = Input::Key { bytes: any_bytes(random, length), times: 1 };
    let decreases = (0..1_000).map(|_| any_decrease(random)).collect();
    [every_kind(random), any_words(random), key, Input::Decreases(decreases)]
}

fn every_kind(random: &mut Random) -> Input {
    let peers = 1 + random.below(70);
    let mut draft = Draft::with_writers();
    for _ in 0..1_000 {
        match random.below(20) {
            0..=4 => {
                let length = random.below(LONGEST + 2);
                draft.hand_in(random, length);
            }
            5..=9 => draft.send(random),
            10 | 11 => draft.signal(random, true),
            12 | 13 => draft.sample(random, peers),
            14 | 15 => draft.tick(),
            16 => draft.push(Item::SetRate { rate: random.below(1 << 28) as u32 }),
            17 => draft.push(Item::Register { id: random.below(8) as u32, class: any_class(random) }),
            _ => draft.advance(random.below(200_000) as u32),
        }
    }
    draft.ended()
}

/// Words whose kind is known, most of them; the tape ends or breaks off somewhere.
fn any_words(random: &mut Random) -> Input {
    let mut draft = Draft::with_writers();
    for _ in 0..random.below(200) {
        let (kind, value) = (1 + random.below(7), random.below(1 << 28));
        let word = (kind << 28 | value) as u32;
        draft.bytes.extend(word.to_le_bytes());
    }
    tape(draft.bytes)
}

/// A factor of any bits from the least above 0 to the largest below 1.
fn any_decrease(random: &mut Random) -> Decrease {
    let least = 1 + random.below(1_000_000);
    let rate = least + random.below(1_000_000_001 - least);
    let bits = 1 + random.below(u64::from(1f32.to_bits()) - 1);
    Decrease { rate: rate as u32, factor: f32::from_bits(bits as u32), least: least as u32 }
}
