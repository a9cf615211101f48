//! A tape in the making. It is run while it is written, so that what comes next can follow from the Rust's replies.

use crate::congestion::config::Priority;
use crate::congestion::writer_pacer::SendAction;
use crate::random::Random;
use crate::refusal;
use crate::tape::item::{Item, EAGAIN, END, HAND_IN, SEND, SIGNAL, TICK, TOS};
use crate::tape::run::{Fields, Reply, Runner};

pub const CLASSES: [Priority; 3] = [Priority::P0, Priority::P1, Priority::P2];

pub struct Draft<'a> {
    pub random: &'a mut Random,
    bytes: Vec<u8>,
    runner: Runner,
    /// Whether unused bits and padding are set at random.
    stray: bool,
    /// The writers registered so far.
    pub writers: u64,
}

impl<'a> Draft<'a> {
    pub fn new(random: &'a mut Random) -> Self {
        Self {
            stray: random.percent(25),
            random,
            bytes: Vec::new(),
            runner: Runner::new(),
            writers: 0,
        }
    }

    /// A draft with writers of random classes.
    pub fn with_writers(random: &'a mut Random, count: u64) -> Self {
        let mut draft = Self::new(random);
        for _ in 0..count {
            let class = draft.class();
            let id = draft.id();
            draft.register(id, class);
        }
        draft
    }

    /// The tape, ended; some have more after the end, which nobody may read.
    pub fn ended(mut self) -> Vec<u8> {
        self.push(Item::End);
        if self.random.percent(10) {
            let count = self.random.between(1, 9);
            for _ in 0..count {
                self.bytes.push(self.random.word() as u8);
            }
        }
        self.bytes
    }

    /// The tape without an end.
    pub fn unended(self) -> Vec<u8> {
        self.bytes
    }

    pub fn len(&self) -> usize {
        self.bytes.len()
    }

    /// Adds an item; the reply where it is answered.
    pub fn push(&mut self, item: Item) -> Option<Reply> {
        let mut bytes = item.encode();
        if self.stray {
            self.set_stray_bits(&item, &mut bytes);
        }
        self.bytes.extend(bytes);
        self.runner.run(&item)
    }

    /// Adds a word that is no item.
    pub fn push_word(&mut self, word: u32) {
        self.bytes.extend(word.to_le_bytes());
    }

    pub fn register(&mut self, id: u32, class: Priority) {
        let reply = self.push(Item::Register { id, class });
        if answer(&reply) == refusal::ACCEPTED {
            self.writers += 1;
        }
    }

    pub fn advance(&mut self, microseconds: u64) {
        self.push(Item::Advance {
            microseconds: microseconds.min(0x0fff_ffff) as u32,
        });
    }

    /// The clock moves on, and the station ticks.
    pub fn tick_after(&mut self, microseconds: u64) {
        self.advance(microseconds);
        self.push(Item::Tick);
    }

    pub fn rtt(&mut self, peer: u32, sample_ms: f32) {
        let bits = sample_ms.to_bits();
        self.push(Item::Rtt { peer, bits });
    }

    /// A record of random bytes; its answer.
    pub fn hand_in(&mut self, pacer: u64, class: Priority, key: [u64; 2], length: u64) -> u64 {
        let bytes = (0..length).map(|_| self.random.word() as u8).collect();
        let key = match class {
            Priority::P2 => key,
            _ => [0; 2],
        };
        let pacer = pacer as u32;
        let item = Item::HandIn {
            pacer,
            class,
            key,
            bytes,
        };
        answer(&self.push(item))
    }

    /// The action of an accepted attempt.
    pub fn send(&mut self, pacer: u64) -> Option<SendAction> {
        let pacer = pacer as u32;
        match self.push(Item::Send { pacer })?.fields {
            Fields::Send(action) => Some(action),
            _ => None,
        }
    }

    /// The wait in nanoseconds that an attempt tells.
    pub fn told_wait(&mut self, pacer: u64) -> Option<u64> {
        match self.send(pacer)? {
            SendAction::RateLimited { wait_time } => Some(wait_time.as_nanos() as u64),
            _ => None,
        }
    }

    pub fn class(&mut self) -> Priority {
        self.random.pick(&CLASSES)
    }

    /// Small ids meet again; some are of all 26 bits.
    pub fn id(&mut self) -> u32 {
        if self.random.percent(80) {
            self.random.below(12) as u32
        } else {
            self.random.of_bits(26) as u32
        }
    }

    /// Mostly a registered pacer.
    pub fn pacer(&mut self) -> u64 {
        if self.writers > 0 && self.random.percent(97) {
            self.random.below(self.writers)
        } else {
            self.random.below(4)
        }
    }

    /// One of a few keys, so that some come again.
    pub fn key(&mut self) -> [u64; 2] {
        [self.random.below(2), self.random.below(3)]
    }

    fn set_stray_bits(&mut self, item: &Item, bytes: &mut [u8]) {
        let head = u32::from_le_bytes([bytes[0], bytes[1], bytes[2], bytes[3]]);
        let stray = self.random.word() as u32 & unused_bits(head);
        bytes[..4].copy_from_slice(&(head | stray).to_le_bytes());
        if let Item::HandIn { bytes: record, .. } = item {
            let padding = record.len().next_multiple_of(4) - record.len();
            let start = bytes.len() - padding;
            for byte in &mut bytes[start..] {
                *byte = self.random.word() as u8;
            }
        }
    }
}

/// The bits of an item's first word that nobody reads.
fn unused_bits(head: u32) -> u32 {
    match (head >> 28, head & 3) {
        (END | TICK, _) => 0x0fff_ffff,
        (SIGNAL, EAGAIN) => 0x0fff_fffc,
        (SIGNAL, TOS) => 0x0fff_00fc,
        (SIGNAL, _) => 0x0000_00fc,
        (HAND_IN, _) => 0x0fff_8000,
        (SEND, _) => 0x0fff_fffc,
        _ => 0,
    }
}

fn answer(reply: &Option<Reply>) -> u64 {
    reply
        .as_ref()
        .map_or(refusal::ACCEPTED, |reply| reply.answer)
}
