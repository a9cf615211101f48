//! The writer pacer: three classes at rates from a byte a second on, waits, full rings and refusals.

use crate::congestion::coalescing::InstanceKey;
use crate::congestion::config::CongestionConfig;
use crate::congestion::writer_pacer::SendAction;
use crate::generate::config::{self, *};
use crate::generate::records::*;
use crate::generate::times::Times;
use crate::generate::values::*;
use crate::operation::*;
use crate::play;
use crate::play::pacer::{class, Pacer};
use crate::random::Random;
use crate::script::Script;

const SECOND: u64 = 1_000_000_000;

const P0: u64 = 0;
const P1: u64 = 1;
const P2: u64 = 2;

/// From 15,010 on a bucket holds more than 1,500 bytes.
const RATES: [u64; 14] = [
    1,
    2,
    100,
    1_250,
    9_999,
    10_000,
    14_999,
    15_000,
    15_010,
    16_777_217,
    1_000_000,
    100_000_000,
    RATE_LIMIT - 1,
    RATE_LIMIT,
];
const REFUSED_RATES: [u64; 4] = [
    RATE_LIMIT + 1,
    u32::MAX as u64,
    (1 << 32) - 2,
    (1 << 32) + RATE_LIMIT + 1,
];

pub fn boundary(script: &mut Script) {
    before_any_new(script);
    accident(script);
    limits_become(script, [2, 3, 3]);
    last_value_wins(script);
    full_p0(script);
    default_keys(script);
    forced(script);
    waits(script);
    places(script);
    lengths(script);
    pools(script);
    limits_become(script, [1, 1, 1]);
    order_of_numbers(script);
    at_limit(script);
    times(script);
    news(script);
    disabled(script);
    rates(script);
}

/// Queue limits 1, 1, 1 and rate 1.
fn before_any_new(script: &mut Script) {
    put(script, 700, 1);
    script.call(POOL_FILL, &[slots(3), 0x1ee]);
    for class in [P2, P1, P0, P0, P1] {
        script.call(PACER_ENQUEUE, &[5, class]);
    }
    send_at(script, &[6; 4]);
}

/// The default settings with these queue limits.
fn limits_become(script: &mut Script, limits: [u64; 3]) {
    script.call(CONFIG_NEW, &[]);
    for (field, limit) in [QUEUE_P0, QUEUE_P1, QUEUE_P2].into_iter().zip(limits) {
        script.call(CONFIG_SET, &[field, limit]);
    }
}

/// A new pacer and its pool of so many slots.
fn new(script: &mut Script, slot_count: u64, time: u64, rate: u64) {
    script.call(PACER_NEW, &[time, rate]);
    script.call(POOL_FILL, &[slots(slot_count), 0]);
}

fn send_at(script: &mut Script, times: &[u64]) {
    for &time in times {
        script.call(PACER_TRY_SEND, &[time]);
    }
}

/// The customer's accident, the Rust's behaviour: a long P1 check-out waits for tokens, but each rack reading in P2 is
/// short enough for the few that there are, goes ahead of it and uses up the credit. The wait that was told, 144.4 ms,
/// is over at the 37th reading; the check-out still waits, until later ones fill P1 and push it out. It is never sent.
pub fn accident(script: &mut Script) {
    const READING: u64 = 40;
    // In this time the bytes of a reading are earned.
    const STEP: u64 = 4_000_000;
    limits_become(script, [2, 4, 4]);
    new(script, 10, 0, 10_000);
    for check_out in [1, 2] {
        put(script, LONGEST, check_out);
        script.call(PACER_ENQUEUE, &[0, P1]);
        script.call(PACER_TRY_SEND, &[0]);
    }
    for reading in 1..=40 {
        let time = STEP * reading;
        if reading % 10 == 0 {
            put(script, 1_000 + reading, reading);
            script.call(PACER_ENQUEUE, &[time, P1]);
        }
        if reading == 1 || reading % 10 == 0 {
            put(script, READING, 1_000 + reading);
        }
        script.call(PACER_ENQUEUE_KEYED, &[time, 77, reading]);
        script.call(PACER_TRY_SEND, &[time]);
    }
    send_at(script, &[1, 2, 3, 4, 5].map(|second| second * SECOND));
    script.call(POOL_SHOW, &[]);
}

/// Keys A, B, A: sends A with sequence 2, then B with 1.
fn last_value_wins(script: &mut Script) {
    new(script, 8, 0, 1_000_000);
    for (number, key) in [100, 200, 100].into_iter().enumerate() {
        put(script, 20 + number as u64, number as u64);
        script.call(PACER_ENQUEUE_KEYED, &[0, 7, key]);
    }
    send_at(script, &[0, 0, 0]);
    script.call(POOL_SHOW, &[]);
}

/// P0 limit 2: the third is 12, a P1 record after it has sequence 3.
fn full_p0(script: &mut Script) {
    new(script, 8, 3, 10_000);
    for number in 0..3 {
        put(script, 40 + number, number);
        script.call(PACER_ENQUEUE, &[3 + number, P0]);
    }
    // 12 has moved the last time
    script.call(PACER_ENQUEUE, &[4, P0]);
    script.call(PACER_ENQUEUE, &[5, P1]);
    script.call(PACER_TRY_SEND, &[5]);
    script.call(PACER_ENQUEUE, &[5, P0]);
    script.call(POOL_SHOW, &[]);
    send_at(script, &[5, 5, 5, 5]);
}

/// A P2 record without a key has that of the topic "default"; a class is taken modulo 3.
fn default_keys(script: &mut Script) {
    let (topic, key) = default_key();
    new(script, 8, 0, 1_000_000);
    put(script, 8, 8);
    script.call(PACER_ENQUEUE, &[0, P2]);
    script.call(PACER_ENQUEUE_KEYED, &[0, topic, key + 1]);
    script.call(PACER_ENQUEUE_KEYED, &[0, topic + 1, key]);
    put(script, 9, 9);
    script.call(PACER_ENQUEUE_KEYED, &[0, topic, key]);
    script.call(PACER_ENQUEUE, &[0, 5]);
    script.call(PACER_ENQUEUE, &[0, u64::MAX]);
    script.call(PACER_ENQUEUE, &[0, 1 << 32]);
    send_at(script, &[0, 0, 0]);
}

/// P0 always goes; its tokens fall to 0 where they are short. A record of no bytes needs none.
fn forced(script: &mut Script) {
    new(script, 8, 0, 1);
    put(script, 1_000, 4);
    script.call(PACER_ENQUEUE, &[0, P0]);
    script.call(PACER_ENQUEUE, &[0, P0]);
    send_at(script, &[0, 0]);
    script.call(PACER_ENQUEUE, &[0, P0]);
    script.call(PACER_TRY_SEND, &[2 * SECOND]);
    put(script, 0, 0);
    for class in [P2, P1, P0] {
        script.call(PACER_ENQUEUE, &[2 * SECOND, class]);
    }
    send_at(script, &[2 * SECOND; 4]);
}

/// The wait is told for P1's first record, else P2's, and does not count time already passed.
fn waits(script: &mut Script) {
    new(script, 8, 0, 10_000);
    put(script, LONGEST, 6);
    for key in [1, 2] {
        script.call(PACER_ENQUEUE_KEYED, &[0, 1, key]);
        script.call(PACER_TRY_SEND, &[0]);
    }
    put(script, 128, 6);
    script.call(PACER_ENQUEUE, &[0, P1]);
    send_at(script, &[0, 1_000, 9_999_999, 10_000_000, 10_099_998]);
    send_at(script, &[10_099_999, 10_099_999, 157_299_999]);
}

/// Slots go P0, P1, P2. A pushed-out record's slot is taken again, a replacement keeps its own.
fn places(script: &mut Script) {
    new(script, 8, 0, 1);
    let hand_ins = [P0, P1, P1, P1, P1, P0, P0, P1];
    for (number, class) in hand_ins.into_iter().enumerate() {
        put(script, 1_400 - 100 * number as u64, number as u64);
        script.call(PACER_ENQUEUE, &[0, class]);
    }
    script.call(POOL_SHOW, &[]);
    for (number, key) in [1, 2, 3, 1, 4, 2, 1].into_iter().enumerate() {
        put(script, 700 - 100 * number as u64, key);
        script.call(PACER_ENQUEUE_KEYED, &[0, key, 0]);
    }
    script.call(POOL_SHOW, &[]);
    send_at(
        script,
        &[1, 2, 1_500, 3_000, 4_500, 6_000, 7_500, 9_000].map(|second| second * SECOND),
    );
}

/// 1,472 bytes pass, 1,473 is 3.
fn lengths(script: &mut Script) {
    new(script, 8, 0, 100_000);
    for length in LENGTHS {
        put(script, length, length);
        script.call(PACER_ENQUEUE, &[0, P1]);
        script.call(PACER_TRY_SEND, &[0]);
    }
    for length in [LONGEST + 1, LONGEST] {
        put(script, length, length);
        script.call(PACER_ENQUEUE, &[0, P0]);
        script.call(PACER_ENQUEUE_KEYED, &[0, 1, 1]);
    }
}

/// A byte shorter than needed, none, longer; `set_rate` needs none.
fn pools(script: &mut Script) {
    new(script, 8, 0, 10_000);
    put(script, 30, 3);
    for lent in [slots(8) - 1, 0, slots(8) + 1] {
        script.call(POOL_LEND, &[lent]);
        script.call(PACER_ENQUEUE, &[0, P1]);
        script.call(PACER_ENQUEUE_KEYED, &[0, 1, 1]);
        script.call(PACER_TRY_SEND, &[0]);
        script.call(PACER_SET_RATE, &[0, 10_000]);
    }
}

/// 3, 7, 8, 17, 11, then 12; 6, 7, 17, 11.
fn order_of_numbers(script: &mut Script) {
    new(script, 3, 10, 10_000);
    put(script, 30, 3);
    script.call(PACER_ENQUEUE, &[10, P0]);
    script.call(PACER_CALLS, &[CALL_LIMIT]);
    script.call(POOL_LEND, &[slots(3) - 1]);
    put(script, LONGEST + 1, 3);
    script.call(PACER_ENQUEUE, &[TIME_LIMIT + 1, P0]);
    put(script, LONGEST, 3);
    for time in [TIME_LIMIT + 1, 9] {
        script.call(PACER_ENQUEUE, &[time, P0]);
        script.call(PACER_ENQUEUE_KEYED, &[time, 1, 1]);
        script.call(PACER_TRY_SEND, &[time]);
        script.call(PACER_SET_RATE, &[time, RATE_LIMIT + 1]);
        script.call(PACER_SET_RATE, &[time, 1]);
    }
    script.call(POOL_LEND, &[slots(3)]);
    script.call(PACER_ENQUEUE, &[9, P0]);
    script.call(PACER_TRY_SEND, &[9]);
    script.call(PACER_CALLS, &[CALL_LIMIT - 2]);
    script.call(PACER_ENQUEUE, &[9, P0]);
    script.call(PACER_TRY_SEND, &[9]);
    script.call(PACER_SET_RATE, &[9, 1]);
    // 12 is one of the calls
    script.call(PACER_ENQUEUE, &[11, P0]);
    script.call(PACER_TRY_SEND, &[11]);
    script.call(PACER_ENQUEUE, &[11, P0]);
}

fn at_limit(script: &mut Script) {
    for calls in [CALL_LIMIT + 1, u64::MAX, CALL_LIMIT - 1] {
        script.call(PACER_CALLS, &[calls]);
        script.call(PACER_ENQUEUE, &[11, P1]);
        script.call(PACER_SET_RATE, &[11, 5]);
    }
    script.call(PACER_CALLS, &[0]);
    script.call(PACER_TRY_SEND, &[11]);
}

fn times(script: &mut Script) {
    new(script, 3, TIME_LIMIT - 1, 10_000);
    for time in [TIME_LIMIT - 2, TIME_LIMIT + 1, TIME_LIMIT] {
        script.call(PACER_ENQUEUE, &[time, P1]);
    }
    send_at(script, &[TIME_LIMIT - 1, TIME_LIMIT]);
    script.call(PACER_ENQUEUE, &[TIME_LIMIT, P1]);
    send_at(script, &[TIME_LIMIT + 1, u64::MAX, TIME_LIMIT]);
    new(script, 3, 0, RATE_LIMIT);
    script.call(PACER_SET_RATE, &[TIME_LIMIT, 0]);
}

/// 1, 2, 6, 7; after a refused one the earlier goes on.
fn news(script: &mut Script) {
    new(script, 3, 4, 10_000);
    put(script, 12, 12);
    script.call(PACER_ENQUEUE, &[4, P1]);
    script.call(PACER_NEW, &[TIME_LIMIT + 1, 1]);
    for rate in [0, RATE_LIMIT + 1, u32::MAX as u64, 1 << 32] {
        script.call(PACER_NEW, &[TIME_LIMIT + 1, rate]);
    }
    script.call(CONFIG_SET, &[QUEUE_P1, 513]);
    script.call(PACER_NEW, &[TIME_LIMIT + 1, 0]);
    script.call(CONFIG_SET, &[DECREASE, 0]);
    script.call(PACER_NEW, &[TIME_LIMIT + 1, 0]);
    send_at(script, &[4, 4]);
    limits_become(script, [1, 1, 1]);
    script.call(PACER_NEW, &[TIME_LIMIT, RATE_LIMIT]);
    // a new pacer may be older than the last one; a rate is taken modulo 2^32
    script.call(PACER_NEW, &[3, (1 << 32) + 5]);
}

/// 13 at a hand-in, nothing at a send attempt; the rate can be set.
fn disabled(script: &mut Script) {
    script.call(CONFIG_SET, &[0, 0]);
    script.call(PACER_NEW, &[7, 20_000]);
    for class in [P0, P1, P2] {
        script.call(PACER_ENQUEUE, &[8, class]);
    }
    script.call(PACER_ENQUEUE_KEYED, &[8, 1, 1]);
    script.call(PACER_TRY_SEND, &[8]);
    // 11 before 13
    script.call(PACER_ENQUEUE, &[7, P1]);
    script.call(PACER_SET_RATE, &[9, 0]);
    script.call(PACER_ENQUEUE, &[8, P1]);
    script.call(CONFIG_SET, &[0, 1]);
}

/// Held to the least and the largest of the settings, but for the one that a pacer starts with.
fn rates(script: &mut Script) {
    new(script, 3, 0, 1);
    for rate in [0, 9_999, 10_001, 100_000_000, 100_000_001] {
        script.call(PACER_SET_RATE, &[1, rate]);
    }
    script.call(CONFIG_SET, &[MIN_RATE, 3]);
    script.call(CONFIG_SET, &[MAX_RATE, RATE_LIMIT]);
    new(script, 3, 0, 1);
    put(script, LONGEST, 9);
    script.call(PACER_ENQUEUE, &[0, P1]);
    script.call(PACER_TRY_SEND, &[0]);
    script.call(PACER_ENQUEUE, &[0, P1]);
    // a byte each nanosecond
    script.call(PACER_SET_RATE, &[0, RATE_LIMIT]);
    send_at(script, &[0, 1_443, 1_444]);
    for rate in [2, 4, 14_999, 15_010, RATE_LIMIT, 1 << 32] {
        script.call(PACER_SET_RATE, &[SECOND, rate]);
    }
    for rate in REFUSED_RATES {
        script.call(PACER_SET_RATE, &[SECOND, rate]);
    }
}

/// A pacer, played along so that it is known what is told.
struct Run {
    pacer: Pacer,
    buffer: Buffer,
    keys: Keys,
    lending: Lending,
    times: Times,
    traffic: Traffic,
    /// The wait told last.
    wait: u64,
}

/// How often what is called, in parts of 100.
struct Traffic {
    sends: u64,
    set_rates: u64,
    p0: u64,
    p1: u64,
    /// P2 records that are short.
    short_p2: u64,
}

impl Traffic {
    fn new(random: &mut Random) -> Self {
        Self {
            sends: random.pick(&[10, 30, 50, 50, 60]),
            set_rates: random.pick(&[2, 5, 10, 30]),
            p0: random.pick(&[0, 10, 30, 60]),
            p1: random.pick(&[5, 40, 60, 90]),
            short_p2: random.pick(&[0, 50, 100]),
        }
    }
}

/// What is wrong with a call.
struct Faults {
    time: bool,
    length: bool,
    pool: bool,
    rate: bool,
}

impl Faults {
    fn new(random: &mut Random, percent: u64) -> Self {
        let [time, length, pool, rate] = random.faults(percent);
        Self {
            time,
            length,
            pool,
            rate,
        }
    }
}

pub fn episode(script: &mut Script, random: &mut Random, length: u64) {
    let end = script.len() + length as usize;
    let mut run = make(script, random, length);
    run.fill_some(script, random);
    while script.len() < end {
        run.call(script, random);
    }
    run.lending.show(script);
}

/// A new pacer with settings within the domain, now and then disabled for a short while.
fn make(script: &mut Script, random: &mut Random, length: u64) -> Run {
    let limits = limits(random, length);
    let disabled = length < 200 && random.percent(10);
    let settings = settings(script, random, limits, disabled);
    let times = Times::new(random);
    let rate = rate(random);
    script.call(PACER_NEW, &[times.now(), widened(random, rate, 32)]);
    let pacer = Pacer::new(settings, times.now(), rate as u32);
    Run {
        buffer: Buffer::new(script, random),
        keys: Keys::new(random, limits[2]),
        lending: Lending::new(script, random, pacer.slot_count() as u64),
        times,
        traffic: Traffic::new(random),
        wait: 0,
        pacer,
    }
}

/// Of P0, P1 and P2; long rings in long episodes only.
fn limits(random: &mut Random, length: u64) -> [u64; 3] {
    match random.below(8) {
        0 => [1, 1, 1],
        1 => [2, 4, 2],
        2 => [2, 2, 3],
        3 if length > 300 => [128, 512, 128],
        4 | 5 if length > 40 => [
            random.between(1, 20),
            random.between(1, 40),
            random.between(1, 20),
        ],
        _ => [
            random.between(1, 3),
            random.between(1, 5),
            random.between(1, 5),
        ],
    }
}

/// Settings that are accepted: the limits, the ends of the rate, and some that a pacer does not read.
fn settings(
    script: &mut Script,
    random: &mut Random,
    limits: [u64; 3],
    disabled: bool,
) -> CongestionConfig {
    let mut config = if disabled {
        CongestionConfig::disabled()
    } else {
        CongestionConfig::default()
    };
    script.call(CONFIG_NEW, &[disabled.into()]);
    let mut set = |field, value| {
        script.call(CONFIG_SET, &[field, value]);
        play::config::set(&mut config, field, value);
    };
    set(QUEUE_P0, limits[0]);
    set(QUEUE_P1, limits[1]);
    set(QUEUE_P2, limits[2]);
    let least = if random.percent(75) { 1 } else { rate(random) };
    let most = match random.below(4) {
        0 => least,
        1 => random.between(least, RATE_LIMIT),
        _ => RATE_LIMIT,
    };
    set(MIN_RATE, least);
    set(MAX_RATE, most);
    for _ in 0..random.below(3) {
        let field = random.pick(&[AI_STEP, 6, 7, 8, 12, 13, 14, 15, 16, 17, P0_MIN, 24]);
        set(field, config::usual(random, field));
    }
    config
}

/// Mostly slow, so that tokens run out.
fn rate(random: &mut Random) -> u64 {
    match random.below(5) {
        0 => random.pick(&RATES),
        1 => random.of_bits(29) + 1,
        2 => random.between(10_000, 100_000),
        _ => random.between(1, 15_000),
    }
}

impl Run {
    /// Long rings, which would hardly be full otherwise, are mostly filled at once.
    fn fill_some(&mut self, script: &mut Script, random: &mut Random) {
        let chance = if self.pacer.slot_count() < 100 {
            15
        } else {
            70
        };
        for class in [P0, P1, P2] {
            if random.percent(chance) {
                self.fill(script, random, class);
            }
        }
    }

    /// Records are handed in until the queue of their class is full, and some more.
    fn fill(&mut self, script: &mut Script, random: &mut Random, class: u64) {
        let time = self.times.now();
        let count = self.pacer.limits()[class as usize] as u64 + random.below(4);
        for key in 0..count {
            self.buffer.next(script, random);
            if class == P2 {
                self.enqueue_keyed(script, time, (key, class));
            } else {
                self.enqueue(script, time, class);
            }
        }
    }

    fn call(&mut self, script: &mut Script, random: &mut Random) {
        self.lending.show_at_times(script, random);
        match random.below(200) {
            0 | 1 => self.refused_new(script, random),
            2 => self.at_call_limit(script, random),
            _ => {
                let faults = Faults::new(random, 8);
                self.faulty_call(script, random, faults);
            }
        }
    }

    /// The call count comes near its limit, is used up, and is set back.
    fn at_call_limit(&mut self, script: &mut Script, random: &mut Random) {
        let left = random.below(4);
        self.set_calls(script, CALL_LIMIT - left);
        for _ in 0..left + random.between(1, 4) {
            let faults = Faults::new(random, 25);
            self.faulty_call(script, random, faults);
        }
        self.set_calls(script, random.of_bits(39));
    }

    fn set_calls(&mut self, script: &mut Script, calls: u64) {
        script.call(PACER_CALLS, &[calls]);
        self.pacer.set_calls(calls);
    }

    fn faulty_call(&mut self, script: &mut Script, random: &mut Random, faults: Faults) {
        let time = if faults.time {
            self.times.refused(random)
        } else {
            self.next_time(random)
        };
        if faults.pool {
            self.lending.shorten(script, random);
        }
        if random.percent(self.traffic.sends) {
            self.try_send(script, time);
        } else if random.percent(self.traffic.set_rates) {
            self.set_rate(script, random, time, faults.rate);
        } else {
            self.hand_in(script, random, time, faults.length);
        }
        if faults.pool {
            self.lending.restore(script);
        }
    }

    /// Some times are those at which a wait is over or a number of bytes is earned, or one nanosecond beside it.
    fn next_time(&mut self, random: &mut Random) -> u64 {
        let earned = random.of_bits(11) * SECOND / u64::from(self.pacer.rate());
        let step = match random.below(12) {
            0..=3 => 0,
            4 => 1,
            5 | 6 => (self.wait + random.below(3)).saturating_sub(1),
            7..=9 => (earned + random.below(3)).saturating_sub(1),
            10 => random.below(3) * SECOND,
            _ => return self.times.next(random),
        };
        self.times.advance(step)
    }

    fn hand_in(&mut self, script: &mut Script, random: &mut Random, time: u64, too_long: bool) {
        if too_long {
            self.buffer.too_long(script, random);
        } else {
            self.buffer.next(script, random);
        }
        let turns = if random.percent(3) {
            random.below(1 << 60)
        } else {
            0
        };
        if random.percent(self.traffic.p0) {
            self.enqueue(script, time, P0 + 3 * turns);
        } else if random.percent(self.traffic.p1) {
            self.enqueue(script, time, P1 + 3 * turns);
        } else if random.percent(10) {
            self.enqueue(script, time, P2 + 3 * turns);
        } else {
            if !too_long && random.percent(self.traffic.short_p2) {
                self.buffer.short(script, random);
            }
            let key = self.keys.next(random);
            self.enqueue_keyed(script, time, key);
        }
    }

    fn enqueue(&mut self, script: &mut Script, time: u64, number: u64) {
        script.call(PACER_ENQUEUE, &[time, number]);
        let pool = &mut self.lending.pool;
        self.pacer
            .enqueue(time, class(number), self.buffer.bytes(), pool);
    }

    fn enqueue_keyed(&mut self, script: &mut Script, time: u64, (topic, key): (u64, u64)) {
        script.call(PACER_ENQUEUE_KEYED, &[time, topic, key]);
        let key = InstanceKey::new(topic, key);
        let pool = &mut self.lending.pool;
        self.pacer
            .enqueue_keyed(time, key, self.buffer.bytes(), pool);
    }

    fn try_send(&mut self, script: &mut Script, time: u64) {
        script.call(PACER_TRY_SEND, &[time]);
        let (_, action) = self.pacer.try_send(time, &self.lending.pool);
        if let SendAction::RateLimited { wait_time } = action {
            self.wait = wait_time.as_nanos() as u64;
        }
    }

    fn set_rate(&mut self, script: &mut Script, random: &mut Random, time: u64, refused: bool) {
        let rate = match random.below(10) {
            _ if refused => random.pick(&REFUSED_RATES),
            0 => random.pick(&[0, RATE_LIMIT]),
            _ => rate(random),
        };
        let given = widened(random, rate, 32);
        script.call(PACER_SET_RATE, &[time, given]);
        self.pacer.set_rate(time, rate as u32);
    }

    /// By its settings, its rate, its time or several of them; the pacer stays.
    fn refused_new(&self, script: &mut Script, random: &mut Random) {
        let (time, rate) = (self.times.now(), rate(random));
        let beyond = TIME_LIMIT + 1 + random.of_bits(63);
        let bad_rate = random.pick(&[0, 1 << 32, RATE_LIMIT + 1, u32::MAX as u64]);
        let either = random.pick(&[time, beyond]);
        match random.below(3) {
            0 => script.call(PACER_NEW, &[beyond, rate]),
            1 => script.call(PACER_NEW, &[either, bad_rate]),
            _ => {
                let (field, value) = random.pick(&REFUSED_SETTINGS);
                script.call(CONFIG_SET, &[field, value]);
                let rate = random.pick(&[rate, bad_rate]);
                script.call(PACER_NEW, &[either, rate]);
                script.call(CONFIG_NEW, &[]);
            }
        }
    }
}
