//! Records for queues and pacers: their bytes, their keys, and the pool that they are kept in.

use crate::operation::*;
use crate::play::coalescing::{hash_bytes, pattern};
use crate::play::pool::{Pool, POOL_BYTES, SLOT_BYTES};
use crate::random::Random;
use crate::script::Script;

/// The longest record.
pub const LONGEST: u64 = SLOT_BYTES as u64;
/// Lengths at the ends of what is accepted and past it.
pub const LENGTHS: [u64; 7] = [0, 1, 64, LONGEST - 1, LONGEST, LONGEST + 1, 4096];

const TOO_LONG: [u64; 5] = [LONGEST + 1, LONGEST + 2, 2 * LONGEST, 4096, u64::MAX];

/// The key that a pacer gives a P2 record without one: `keyless("default")`.
pub fn default_key() -> (u64, u64) {
    (hash_bytes(b"default"), 0)
}

/// The bytes that so many slots have.
pub fn slots(count: u64) -> u64 {
    LONGEST * count
}

/// The byte buffer becomes `length` bytes of a pattern.
pub fn put(script: &mut Script, length: u64, number: u64) {
    script.call(BYTES_PATTERN, &[length, number]);
}

/// The byte buffer, as the calls so far leave it.
pub struct Buffer {
    bytes: Vec<u8>,
    /// A length that comes again and again.
    usual: u64,
}

impl Buffer {
    pub fn new(script: &mut Script, random: &mut Random) -> Self {
        let mut buffer = Self {
            bytes: Vec::new(),
            usual: random.pick(&[0, 1, 24, 64, 300, LONGEST - 1, LONGEST, LONGEST]),
        };
        buffer.renew(script, random);
        buffer
    }

    pub fn bytes(&self) -> &[u8] {
        &self.bytes
    }

    /// Another record, mostly; now and then the same is handed in again.
    pub fn next(&mut self, script: &mut Script, random: &mut Random) {
        if self.is_too_long() || random.percent(70) {
            self.renew(script, random);
        }
    }

    pub fn too_long(&mut self, script: &mut Script, random: &mut Random) {
        let length = random.pick(&TOO_LONG);
        self.put(script, random, length);
    }

    pub fn short(&mut self, script: &mut Script, random: &mut Random) {
        let length = random.between(1, 40);
        self.put(script, random, length);
    }

    fn is_too_long(&self) -> bool {
        self.bytes.len() as u64 > LONGEST
    }

    fn renew(&mut self, script: &mut Script, random: &mut Random) {
        let length = match random.below(6) {
            0 => random.pick(&LENGTHS[..5]),
            1 => random.below(LONGEST + 1),
            2 => random.of_bits(10),
            _ => self.usual,
        };
        self.put(script, random, length);
    }

    fn put(&mut self, script: &mut Script, random: &mut Random, length: u64) {
        let number = random.of_bits(20);
        put(script, length, number);
        self.bytes = pattern(length, number);
    }
}

/// Keys from few halves, so that they come again and some are equal in one half only.
pub struct Keys {
    topics: Vec<u64>,
    keys: Vec<u64>,
}

impl Keys {
    /// Fewer keys than a queue of that limit takes, about as many, or more.
    pub fn new(random: &mut Random, limit: u64) -> Self {
        let count = random.pick(&[1, limit / 2 + 1, limit, limit + 1, limit + 1, 3 * limit]);
        let topics = random.pick(&[1, 1, 2, 3, count]).min(count);
        Self {
            topics: halves(random, topics),
            keys: halves(random, count.div_ceil(topics)),
        }
    }

    pub fn next(&self, random: &mut Random) -> (u64, u64) {
        let (topic, key) = (random.pick(&self.topics), random.pick(&self.keys));
        match random.below(25) {
            0 => default_key(),
            1 => (key, topic),
            2 => (default_key().0, key),
            _ => (topic, key),
        }
    }
}

/// Halves of keys, some of them one bit apart.
fn halves(random: &mut Random, count: u64) -> Vec<u64> {
    let mut halves = vec![random.word()];
    while (halves.len() as u64) < count {
        let half = match random.below(6) {
            0 => random.pick(&[0, 1, 1 << 32, u64::MAX, default_key().0]),
            1 | 2 => random.pick(&halves) ^ 1 << random.below(64),
            3 => random.of_bits(64),
            _ => random.word(),
        };
        halves.push(half);
    }
    halves
}

/// The part of the pool that is lent, as the calls so far leave it.
pub struct Lending {
    pub pool: Pool,
    needed: u64,
    lent: u64,
}

impl Lending {
    /// Lends as many slots as are needed, some with more after them. Nothing may wait in what uses the pool, since its
    /// bytes may change.
    pub fn new(script: &mut Script, random: &mut Random, needed: u64) -> Self {
        let needed = slots(needed);
        let lent = match random.below(30) {
            0 => needed + random.pick(&[1, LONGEST]),
            1 | 2 => needed + random.of_bits(14),
            3 => random.pick(&[POOL_BYTES as u64, POOL_BYTES as u64 + 1, u64::MAX]),
            _ => needed,
        };
        let mut lending = Self {
            pool: Pool::default(),
            needed,
            lent,
        };
        if random.percent(50) {
            script.call(POOL_FILL, &[lent, random.of_bits(10)]);
            lending.pool.lend(lent);
        } else {
            lending.lend(script, lent);
        }
        lending
    }

    /// Lends fewer bytes than are needed, until they are restored.
    pub fn shorten(&mut self, script: &mut Script, random: &mut Random) {
        let short = match random.below(4) {
            0 => 0,
            1 => random.below(self.needed),
            2 => self.needed - LONGEST,
            _ => self.needed - 1,
        };
        self.lend(script, short);
    }

    pub fn restore(&mut self, script: &mut Script) {
        self.lend(script, self.lent);
    }

    pub fn show(&self, script: &mut Script) {
        script.call(POOL_SHOW, &[]);
    }

    /// The more there is to read, the more rarely.
    pub fn show_at_times(&self, script: &mut Script, random: &mut Random) {
        let read = self.lent.min(POOL_BYTES as u64);
        if random.below((read / 5_000).max(20)) == 0 {
            self.show(script);
        }
    }

    fn lend(&mut self, script: &mut Script, bytes: u64) {
        script.call(POOL_LEND, &[bytes]);
        self.pool.lend(bytes);
    }
}
