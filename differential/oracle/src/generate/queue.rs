//! The coalescing queue: keys that come again, join or push out, in rings from one slot to 128.

use crate::generate::records::*;
use crate::generate::times::at_call_limit;
use crate::generate::values::*;
use crate::operation::*;
use crate::random::Random;
use crate::script::Script;

const REFUSED_LIMITS: [u64; 6] = [0, 129, 130, 1 << 32, (1 << 32) + 1, u64::MAX];

pub fn boundary(script: &mut Script) {
    before_any_new(script);
    settled_example(script);
    lengths(script);
    places(script);
    halves_of_keys(script);
    pools(script);
    order_of_numbers(script);
    at_limit(script);
    news(script);
    full_ring(script);
}

/// Limit 1, and nothing lent.
fn before_any_new(script: &mut Script) {
    put(script, 10, 1);
    script.call(QUEUE_PEEK, &[]);
    script.call(QUEUE_POP, &[]);
    script.call(QUEUE_INSERT, &[1, 1]);
    script.call(POOL_FILL, &[slots(1), 0x1ff]);
    script.call(QUEUE_POP, &[]);
    script.call(QUEUE_INSERT, &[1, 1]);
    script.call(QUEUE_INSERT, &[1, 1]);
    script.call(QUEUE_INSERT, &[1, 2]);
    script.call(QUEUE_PEEK, &[]);
    script.call(QUEUE_POP, &[]);
    script.call(QUEUE_POP, &[]);
    script.call(POOL_SHOW, &[]);
}

/// A new queue with the pool that it needs.
fn new(script: &mut Script, limit: u64) {
    script.call(QUEUE_NEW, &[limit]);
    script.call(POOL_FILL, &[slots(limit), limit]);
}

/// Keys A, B, A: out come A with sequence 2, then B with 1.
fn settled_example(script: &mut Script) {
    let (a, b) = ([7, 100], [7, 200]);
    new(script, 2);
    for (number, key) in [a, b, a].iter().enumerate() {
        put(script, 20 + number as u64, number as u64);
        script.call(QUEUE_INSERT, key);
    }
    for _ in 0..3 {
        script.call(QUEUE_PEEK, &[]);
        script.call(QUEUE_POP, &[]);
    }
    script.call(POOL_SHOW, &[]);
}

/// 1,472 bytes pass, 1,473 is 3.
fn lengths(script: &mut Script) {
    new(script, 3);
    for length in LENGTHS {
        put(script, length, length);
        script.call(QUEUE_INSERT, &[length, 0]);
    }
    for _ in 0..3 {
        script.call(QUEUE_POP, &[]);
    }
    script.call(POOL_SHOW, &[]);
}

/// A new key takes the next slot, a replacement its own; bytes past a record stay.
fn places(script: &mut Script) {
    new(script, 3);
    let inserts = [
        (1, LONGEST),
        (2, 900),
        (1, 100),
        (3, LONGEST),
        (2, LONGEST),
        (4, 5),
        (3, 0),
        (1, 700),
        (4, 6),
        (3, 1),
    ];
    for (key, length) in inserts {
        put(script, length, key + length);
        script.call(QUEUE_INSERT, &[key, key]);
        script.call(POOL_SHOW, &[]);
    }
    script.call(QUEUE_POP, &[]);
    put(script, 50, 50);
    script.call(QUEUE_INSERT, &[5, 5]);
    script.call(POOL_SHOW, &[]);
    for _ in 0..4 {
        script.call(QUEUE_POP, &[]);
    }
}

/// A key is equal only where both its halves are.
fn halves_of_keys(script: &mut Script) {
    new(script, 8);
    let (default, none) = default_key();
    let keys = [
        [0, 0],
        [0, 1],
        [1, 0],
        [1, 1],
        [1 << 32, 0],
        [0, u64::MAX],
        [u64::MAX, 0],
        [default, none],
    ];
    for key in keys.iter().chain(keys.iter().rev()) {
        script.call(QUEUE_INSERT, key);
    }
    for _ in 0..8 {
        script.call(QUEUE_POP, &[]);
    }
}

/// Exactly as long as needed, a byte shorter, none, longer, all.
fn pools(script: &mut Script) {
    new(script, 2);
    put(script, 30, 3);
    for lent in [slots(2), slots(2) - 1, slots(1), 0, slots(2) + 1, u64::MAX] {
        script.call(POOL_LEND, &[lent]);
        script.call(QUEUE_INSERT, &[lent, 9]);
        script.call(QUEUE_INSERT, &[lent, 8]);
        script.call(QUEUE_POP, &[]);
        script.call(QUEUE_PEEK, &[]);
    }
}

/// 3, 8, 17.
fn order_of_numbers(script: &mut Script) {
    new(script, 2);
    put(script, 5, 5);
    script.call(QUEUE_INSERT, &[1, 1]);
    script.call(QUEUE_CALLS, &[CALL_LIMIT]);
    script.call(POOL_LEND, &[slots(2) - 1]);
    put(script, LONGEST + 1, 5);
    script.call(QUEUE_INSERT, &[1, 1]);
    put(script, LONGEST, 5);
    script.call(QUEUE_INSERT, &[1, 1]);
    script.call(QUEUE_POP, &[]);
    script.call(QUEUE_PEEK, &[]);
    script.call(POOL_LEND, &[slots(2)]);
    script.call(QUEUE_INSERT, &[1, 1]);
    script.call(QUEUE_POP, &[]);
    script.call(QUEUE_PEEK, &[]);
    put(script, LONGEST + 1, 5);
    script.call(QUEUE_INSERT, &[1, 1]);
    script.call(POOL_SHOW, &[]);
}

fn at_limit(script: &mut Script) {
    put(script, 7, 7);
    for calls in [CALL_LIMIT - 2, CALL_LIMIT + 1, u64::MAX, CALL_LIMIT - 1] {
        script.call(QUEUE_CALLS, &[calls]);
        script.call(QUEUE_INSERT, &[2, 2]);
        script.call(QUEUE_POP, &[]);
        script.call(QUEUE_POP, &[]);
    }
    script.call(QUEUE_CALLS, &[0]);
    script.call(QUEUE_POP, &[]);
}

/// After a refused one the earlier goes on.
fn news(script: &mut Script) {
    new(script, 2);
    put(script, 11, 11);
    script.call(QUEUE_INSERT, &[1, 1]);
    for limit in REFUSED_LIMITS {
        script.call(QUEUE_NEW, &[limit]);
        script.call(QUEUE_INSERT, &[2, limit]);
    }
    script.call(QUEUE_POP, &[]);
    for limit in [1, 128] {
        script.call(QUEUE_NEW, &[limit]);
        script.call(QUEUE_POP, &[]);
    }
}

/// All 128 slots, and two more keys.
fn full_ring(script: &mut Script) {
    new(script, 128);
    for key in 0..130 {
        if key % 32 == 0 {
            put(script, LONGEST, key);
        }
        script.call(QUEUE_INSERT, &[key, 1]);
    }
    for key in [1, 2, 129, 70] {
        script.call(QUEUE_INSERT, &[key, 1]);
    }
    script.call(QUEUE_POP, &[]);
    script.call(QUEUE_POP, &[]);
    script.call(POOL_SHOW, &[]);
}

struct Run {
    limit: u64,
    buffer: Buffer,
    keys: Keys,
    lending: Lending,
    /// How many of 100 calls take a record out.
    popped: u64,
}

pub fn episode(script: &mut Script, random: &mut Random, length: u64) {
    let end = script.len() + length as usize;
    let mut run = make(script, random, length);
    // Long rings would hardly be full otherwise.
    if random.percent(if run.limit < 100 { 30 } else { 80 }) {
        run.fill(script, random);
    }
    while script.len() < end {
        run.call(script, random);
    }
    run.lending.show(script);
}

/// A new queue; long rings in long episodes only.
fn make(script: &mut Script, random: &mut Random, length: u64) -> Run {
    let limit = match random.below(10) {
        0 => 1,
        1 => 2,
        2 => 3,
        3 if length > 200 => 128,
        4 if length > 200 => random.between(100, 128),
        5 | 6 if length > 30 => random.between(1, 40),
        _ => random.between(1, 8),
    };
    script.call(QUEUE_NEW, &[limit]);
    Run {
        limit,
        buffer: Buffer::new(script, random),
        keys: Keys::new(random, limit),
        lending: Lending::new(script, random, limit),
        popped: random.pick(&[2, 10, 40, 40, 60]),
    }
}

impl Run {
    /// As many new keys as there are slots, and some more.
    fn fill(&mut self, script: &mut Script, random: &mut Random) {
        let topic = random.word();
        for key in 0..self.limit + random.below(4) {
            self.buffer.next(script, random);
            script.call(QUEUE_INSERT, &[topic, key]);
        }
    }

    /// About one call in 20 is refused, by one number or two.
    fn call(&mut self, script: &mut Script, random: &mut Random) {
        self.lending.show_at_times(script, random);
        match random.below(200) {
            0..=1 => script.call(QUEUE_NEW, &[random.pick(&REFUSED_LIMITS)]),
            2..=5 => self.insert_too_long(script, random),
            6..=11 => self.while_short(script, random),
            12 => at_call_limit(script, random, QUEUE_CALLS, |script, random| {
                self.usual_call(script, random)
            }),
            _ => self.usual_call(script, random),
        }
    }

    fn usual_call(&mut self, script: &mut Script, random: &mut Random) {
        if random.percent(self.popped) {
            script.call(QUEUE_POP, &[]);
        } else if random.percent(10) {
            script.call(QUEUE_PEEK, &[]);
        } else {
            self.buffer.next(script, random);
            self.insert(script, random);
        }
    }

    fn insert(&self, script: &mut Script, random: &mut Random) {
        let (topic, key) = self.keys.next(random);
        script.call(QUEUE_INSERT, &[topic, key]);
    }

    fn insert_too_long(&mut self, script: &mut Script, random: &mut Random) {
        self.buffer.too_long(script, random);
        self.insert(script, random);
    }

    fn while_short(&mut self, script: &mut Script, random: &mut Random) {
        self.lending.shorten(script, random);
        if random.percent(30) {
            self.buffer.too_long(script, random);
        }
        if random.percent(70) {
            self.insert(script, random);
        }
        if random.percent(60) {
            script.call(QUEUE_POP, &[]);
        }
        if random.percent(20) {
            script.call(QUEUE_PEEK, &[]);
        }
        self.lending.restore(script);
    }
}
