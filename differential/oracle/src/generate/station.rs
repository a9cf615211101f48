//! The station: settled examples, every number, waits at their nanosecond, and (in `run`) random lists of calls.

use crate::generate::config::*;
use crate::generate::records::*;
use crate::generate::settings::*;
use crate::generate::values::*;
use crate::operation::*;
use crate::script::Script;

mod run;

pub use run::episode;

const MILLISECOND: u64 = 1_000_000;
const SECOND: u64 = 1_000_000_000;

const P0: u64 = 0;
const P1: u64 = 1;
const P2: u64 = 2;

const ECT0: u64 = 2;
const CE: u64 = 3;

/// Writers in a station.
const WRITERS: u64 = 4;
/// A pacer that no station has.
const NO_PACER: u64 = 9;

pub fn boundary(script: &mut Script) {
    before_any_new(script);
    eagain(script);
    lengths(script);
    peers(script);
    order_of_numbers(script);
    times(script);
    full_p0(script);
    accident(script);
    shared_numbers(script);
    last_value_wins(script);
    writers(script);
    places(script);
    pools(script);
    large_limits(script);
    refusals_move_nothing(script);
    at_limit(script);
    disabled(script);
    waits(script);
    short_by_one(script);
    budgets(script);
    marks(script);
    factor_one(script);
    storm(script);
    news(script);
}

/// The default settings with these queue limits and some changes, and a new station at a time. As many bytes are lent
/// as it needs.
fn new(script: &mut Script, limits: [u64; 3], changes: &[(u64, u64)], time: u64) {
    let mut settings = Settings::new(script);
    for (field, limit) in [QUEUE_P0, QUEUE_P1, QUEUE_P2].into_iter().zip(limits) {
        settings.set(script, field, limit);
    }
    for &(field, value) in changes {
        settings.set(script, field, value);
    }
    script.call(STATION_NEW, &[time]);
    script.call(POOL_FILL, &[pool_bytes(limits), 0]);
}

fn pool_bytes(limits: [u64; 3]) -> u64 {
    slots(WRITERS * limits.iter().sum::<u64>())
}

/// Writers of these classes, with ids from 1 on.
fn register(script: &mut Script, time: u64, classes: &[u64]) {
    for (id, &class) in (1..).zip(classes) {
        script.call(STATION_REGISTER, &[time, id, class]);
    }
}

/// A record of so many bytes, under no key that P2 would have again.
fn hand_in(script: &mut Script, time: u64, pacer: u64, class: u64, length: u64) {
    let number = script.len() as u64;
    put(script, length, number);
    script.call(STATION_HAND_IN, &[time, pacer, class, number, length]);
}

fn send_at(script: &mut Script, pacer: u64, times: &[u64]) {
    for &time in times {
        script.call(STATION_SEND, &[time, pacer]);
    }
}

fn tick_at(script: &mut Script, times: &[u64]) {
    for &time in times {
        script.call(STATION_TICK, &[time]);
    }
}

/// The controller and the first so many pacers.
fn show(script: &mut Script, pacers: u64) {
    script.call(STATION_CONTROLLER, &[]);
    for pacer in 0..pacers {
        script.call(STATION_PLACE, &[pacer]);
    }
}

/// Queue limits 1, 1, 1; no byte is lent yet.
fn before_any_new(script: &mut Script) {
    script.call(POOL_LEND, &[0]);
    script.call(STATION_SEND, &[0, 0]);
    script.call(POOL_FILL, &[pool_bytes([1, 1, 1]), 0x155]);
    script.call(STATION_SEND, &[0, 0]);
    tick_at(script, &[0]);
    register(script, 1, &[P1]);
    hand_in(script, 1, 0, P2, 20);
    send_at(script, 0, &[1, 1]);
    show(script, 2);
}

/// EAGAIN, tick: score 60, hard, 100,000,000 to 50,000,000; writer 1 of P0 gets 10,000,000, writer 2 of P1 28,000,000.
pub fn eagain(script: &mut Script) {
    new(script, [2, 4, 2], &[(ECN_MODE, 1)], 0);
    register(script, 0, &[P0, P1]);
    script.call(STATION_EAGAIN, &[0]);
    tick_at(script, &[100 * MILLISECOND]);
    send_at(script, 0, &[100 * MILLISECOND]);
    show(script, 2);
}

/// 1,472 bytes pass, 1,473 is 3.
pub fn lengths(script: &mut Script) {
    new(script, [2, 2, 2], &[], 0);
    register(script, 0, &[P0]);
    for length in LENGTHS {
        for class in [P0, P1, P2] {
            hand_in(script, 0, 0, class, length);
        }
        send_at(script, 0, &[0]);
    }
    script.call(POOL_SHOW, &[]);
    send_at(script, 0, &[SECOND; 6]);
}

/// Peer 65 is 14; those known go on.
pub fn peers(script: &mut Script) {
    new(script, [1, 1, 1], &[], 0);
    for peer in 1..=65 {
        script.call(STATION_RTT, &[peer, peer, bits(peer as f32)]);
    }
    script.call(STATION_RTT, &[66, 64, bits(500.0)]);
    script.call(STATION_RTT, &[66, (1 << 32) + 1, bits(0.0)]);
    // a bad sample is 4 before 14, and enters no peer
    for sample in [f32::NAN, -1.0, 1_000_001.0, f32::INFINITY] {
        script.call(STATION_RTT, &[66, 65, bits(sample)]);
    }
    tick_at(script, &[67]);
    show(script, 0);
}

/// 2^62 passes, one more is 7.
pub fn times(script: &mut Script) {
    new(script, [1, 1, 1], &[], TIME_LIMIT - 1);
    for time in [TIME_LIMIT + 1, TIME_LIMIT, u64::MAX, TIME_LIMIT - 1] {
        register(script, time, &[P1]);
        every_signal(script, time);
        script.call(STATION_SET_RATE, &[time, 20_000]);
        hand_in(script, time, 0, P1, 10);
        send_at(script, 0, &[time]);
    }
    script.call(STATION_NEW, &[TIME_LIMIT + 1]);
    script.call(STATION_NEW, &[TIME_LIMIT]);
    tick_at(script, &[TIME_LIMIT]);
}

/// The four signals and the tick.
fn every_signal(script: &mut Script, time: u64) {
    script.call(STATION_EAGAIN, &[time]);
    script.call(STATION_TOS, &[time, CE]);
    script.call(STATION_NACKS, &[time, 3]);
    script.call(STATION_RTT, &[time, 5, bits(1.0)]);
    script.call(STATION_TICK, &[time]);
}

/// P0 limit 2: the third is 12, a P1 record after it has sequence 3. 12 moves the last time.
pub fn full_p0(script: &mut Script) {
    new(script, [2, 2, 2], &[], 3);
    register(script, 3, &[P0, P1]);
    for step in 0..3 {
        hand_in(script, 3 + step, 0, P0, 40 + step);
    }
    send_at(script, 0, &[4]);
    hand_in(script, 5, 0, P1, 50);
    // the other pacer has room and numbers of its own
    hand_in(script, 5, 1, P0, 60);
    send_at(script, 0, &[5; 4]);
    send_at(script, 1, &[5; 2]);
}

/// The customer's accident on a station: a long P1 check-out waits for tokens, but each rack reading in P2 is short
/// enough for the few that there are, goes ahead of it and uses up the credit. The wait that was told, 144.4 ms, is
/// over at the 37th reading; the check-out still waits, until later ones fill P1 and push it out. It is never sent.
pub fn accident(script: &mut Script) {
    const READING: u64 = 40;
    // In this time the bytes of a reading are earned.
    const STEP: u64 = 4 * MILLISECOND;
    new(script, [2, 4, 4], &[], 0);
    register(script, 0, &[P1]);
    for _ in 0..2 {
        hand_in(script, 0, 0, P1, LONGEST);
        send_at(script, 0, &[0]);
    }
    for reading in 1..=40 {
        let time = STEP * reading;
        if reading % 10 == 0 {
            hand_in(script, time, 0, P1, 1_000 + reading);
        }
        if reading == 1 || reading % 10 == 0 {
            put(script, READING, 1_000 + reading);
        }
        script.call(STATION_HAND_IN, &[time, 0, P2, 77, reading]);
        send_at(script, 0, &[time]);
    }
    send_at(script, 0, &[1, 2, 3, 4, 5].map(|second| second * SECOND));
    script.call(POOL_SHOW, &[]);
    show(script, 1);
}

/// P1, P2, P1 on one pacer: P1's have sequences 0 and 2, since a P2 record uses up a number of theirs.
fn shared_numbers(script: &mut Script) {
    new(script, [1, 4, 4], &[], 0);
    register(script, 0, &[P2]);
    for class in [P1, P2, P1, P2, P0] {
        hand_in(script, 0, 0, class, 10);
    }
    send_at(script, 0, &[0; 6]);
}

/// Keys A, B, A: sends A with sequence 2, then B with 1. P0 and P1 do not look at the key.
fn last_value_wins(script: &mut Script) {
    new(script, [2, 2, 3], &[], 0);
    register(script, 0, &[P2, P2]);
    for (number, key) in [100, 200, 100].into_iter().enumerate() {
        put(script, 20 + number as u64, number as u64);
        for (pacer, class) in [(0, P2), (1, P2), (1, P1)] {
            script.call(STATION_HAND_IN, &[0, pacer, class, 7, key]);
        }
    }
    send_at(script, 0, &[0, 0, 0]);
    send_at(script, 1, &[0; 5]);
}

/// Four writers; the fifth is 14, and a known id 16 first. Any class may be handed in to any pacer.
fn writers(script: &mut Script) {
    new(script, [1, 1, 1], &[], 0);
    for (id, class) in [(u64::MAX, 2), (0, 4), (7, 1 << 32), (1, u64::MAX)] {
        script.call(STATION_REGISTER, &[0, id, class]);
        script.call(STATION_REGISTER, &[0, id, P1]);
        send_at(script, 3, &[0]);
    }
    for id in [8, 0] {
        script.call(STATION_REGISTER, &[0, id, P0]);
    }
    for (pacer, class) in [(0, P0), (1, P1), (2, P2), (3, 4), (256, P2), (4, P1)] {
        hand_in(script, 1, pacer, class, 12);
    }
    script.call(STATION_SET_RATE, &[1, 60_000]);
    show(script, 6);
}

/// Slots go P0, P1, P2, writer after writer. A pushed-out record's slot is taken again, a replacement keeps its own.
fn places(script: &mut Script) {
    new(script, [1, 2, 2], &[], 0);
    register(script, 0, &[P1, P1, P1, P1]);
    for pacer in 0..WRITERS {
        for (number, class) in [P0, P1, P1, P1, P0].into_iter().enumerate() {
            hand_in(script, 0, pacer, class, 200 - 40 * number as u64);
        }
        for (number, key) in [1, 2, 1, 3, 2].into_iter().enumerate() {
            put(script, 90 - 10 * number as u64, pacer);
            script.call(STATION_HAND_IN, &[0, pacer, P2, key, pacer]);
        }
    }
    script.call(POOL_SHOW, &[]);
    for pacer in 0..WRITERS {
        send_at(script, pacer, &[0; 6]);
    }
}

/// A byte shorter than four writers need, none, longer; the other calls need none.
fn pools(script: &mut Script) {
    let needed = pool_bytes([1, 2, 1]);
    new(script, [1, 2, 1], &[], 0);
    register(script, 0, &[P1]);
    for lent in [needed - 1, 0, slots(4), needed + 1] {
        script.call(POOL_LEND, &[lent]);
        hand_in(script, 0, 0, P1, 30);
        hand_in(script, 0, 0, P2, 30);
        send_at(script, 0, &[0]);
        every_signal(script, 0);
        script.call(STATION_SET_RATE, &[0, 10_000]);
    }
    register(script, 0, &[P0, P0]);
}

/// 192 slots a writer fill the pool of a script; with one more every hand-in and send attempt is 8.
fn large_limits(script: &mut Script) {
    for limits in [[32, 128, 32], [32, 128, 33], [128, 512, 128]] {
        new(script, limits, &[], 0);
        register(script, 0, &[P0, P1, P2, P1]);
        hand_in(script, 0, 3, P2, LONGEST);
        send_at(script, 3, &[0, 0]);
    }
}

/// All that can be wrong with a call is wrong; then one thing after the other is mended. The peers are those from before,
/// and the last time is 67.
fn order_of_numbers(script: &mut Script) {
    register(script, 67, &[P0, P1, P1, P2]);
    hand_in(script, 67, 0, P0, 5);
    mended_in_order(script, 67);
}

/// The input: 3, 4, 6; then 7 and 8. The state: 17, 11; then 13, 15, 16, 14 and 12.
fn mended_in_order(script: &mut Script, last: u64) {
    let short = pool_bytes([1, 1, 1]) - 1;
    script.call(STATION_CALLS, &[CALL_LIMIT]);
    script.call(POOL_LEND, &[short]);
    every_call(script, TIME_LIMIT + 1, true);
    every_call(script, TIME_LIMIT + 1, false);
    every_call(script, last - 1, false);
    script.call(POOL_LEND, &[short + 1]);
    every_call(script, last - 1, false);
    script.call(STATION_CALLS, &[CALL_LIMIT - 3]);
    every_call(script, last - 1, false);
    script.call(STATION_CALLS, &[0]);
    every_call(script, last, false);
}

/// Each call, with a record, a sample and a rate beyond their ranges or without.
fn every_call(script: &mut Script, time: u64, beyond: bool) {
    let (length, sample, rate) = if beyond {
        (LONGEST + 1, u64::from(NAN), RATE_LIMIT + 1)
    } else {
        (LONGEST, bits(1.0), 1)
    };
    for id in [1, 99] {
        script.call(STATION_REGISTER, &[time, id, P1]);
    }
    script.call(STATION_EAGAIN, &[time]);
    script.call(STATION_TOS, &[time, CE]);
    script.call(STATION_NACKS, &[time, 1]);
    script.call(STATION_RTT, &[time, 1_000, sample]);
    script.call(STATION_TICK, &[time]);
    script.call(STATION_SET_RATE, &[time, rate]);
    put(script, length, 3);
    for pacer in [NO_PACER, 0] {
        script.call(STATION_HAND_IN, &[time, pacer, P0, 1, 1]);
    }
    send_at(script, NO_PACER, &[time]);
}

/// A call that is turned down at a later time leaves the last time: an earlier one passes after it.
fn refusals_move_nothing(script: &mut Script) {
    new(script, [1, 1, 1], &[], 10);
    register(script, 10, &[P0]);
    script.call(STATION_REGISTER, &[20, 1, P0]);
    script.call(STATION_RTT, &[20, 1, u64::from(NAN)]);
    script.call(STATION_SET_RATE, &[20, RATE_LIMIT + 1]);
    hand_in(script, 20, 0, P1, LONGEST + 1);
    hand_in(script, 20, NO_PACER, P1, 1);
    send_at(script, NO_PACER, &[20]);
    script.call(STATION_TICK, &[9]);
    script.call(STATION_TICK, &[10]);
    // 12 does move it
    hand_in(script, 10, 0, P0, 5);
    hand_in(script, 20, 0, P0, 5);
    script.call(STATION_EAGAIN, &[19]);
}

/// 12 is one of the calls; at the limit nothing more passes.
fn at_limit(script: &mut Script) {
    new(script, [1, 1, 1], &[], 0);
    script.call(STATION_CALLS, &[CALL_LIMIT - 4]);
    register(script, 0, &[P0]);
    for _ in 0..3 {
        hand_in(script, 0, 0, P0, 5);
    }
    for calls in [CALL_LIMIT, CALL_LIMIT + 1, u64::MAX, CALL_LIMIT - 1] {
        script.call(STATION_CALLS, &[calls]);
        send_at(script, 0, &[1]);
        tick_at(script, &[1]);
    }
}

/// Register and set rate work, signals, ticks and send attempts do nothing but count, and no peer is entered.
fn disabled(script: &mut Script) {
    new(script, [1, 1, 1], &[(ENABLED, 0), (ECN_MODE, 1)], 10);
    register(script, 10, &[P0, P1, P1, P2]);
    mended_in_order(script, 10);
    script.call(STATION_RTT, &[11, 5, bits(9.0)]);
    send_at(script, 0, &[12, 11]);
    script.call(STATION_SET_RATE, &[2 * SECOND, 30_000]);
    show(script, WRITERS);
}

/// A wait is told for P1's first record. One nanosecond before it is over, at its end and one after, where calls that
/// do not concern that pacer lie between.
fn waits(script: &mut Script) {
    const WAIT: u64 = 144_400_000;
    for later in [WAIT - 1, WAIT, WAIT + 1] {
        new(script, [2, 4, 2], &[], 0);
        register(script, 0, &[P1, P1]);
        for _ in 0..2 {
            hand_in(script, 0, 0, P1, LONGEST);
            send_at(script, 0, &[0]);
        }
        script.call(STATION_NACKS, &[WAIT / 2, 1]);
        hand_in(script, WAIT / 2, 1, P0, 900);
        send_at(script, 1, &[WAIT / 2]);
        script.call(STATION_REGISTER, &[WAIT / 2, 77, P0]);
        script.call(STATION_SET_RATE, &[WAIT / 2, RATE_LIMIT + 1]);
        tick_at(script, &[WAIT - 1]);
        send_at(script, 0, &[later, later]);
    }
}

/// 59 bytes at 3,643,934 bytes/s are told 16,191 ns, in which 58 are earned: they go one nanosecond later.
fn short_by_one(script: &mut Script) {
    for later in [16_190, 16_191, 16_192] {
        new(
            script,
            [2, 4, 2],
            &[(MIN_RATE, 1), (MAX_RATE, 3_643_934)],
            0,
        );
        register(script, 0, &[P1]);
        for _ in 0..2 {
            hand_in(script, 0, 0, P0, LONGEST);
            send_at(script, 0, &[0]);
        }
        script.call(STATION_SET_RATE, &[0, RATE_LIMIT]);
        hand_in(script, 0, 0, P1, 59);
        send_at(script, 0, &[0, later]);
    }
}

/// The raw rate is shared out; each pacer's is held to the settings' range.
fn budgets(script: &mut Script) {
    new(
        script,
        [1, 2, 1],
        &[(MIN_RATE, 3), (MAX_RATE, 20_000_000)],
        0,
    );
    script.call(STATION_SET_RATE, &[0, 5_000]);
    register(script, 0, &[P2, P1, P0, P1]);
    hand_in(script, 0, 1, P1, LONGEST);
    let rates = [
        0,
        1,
        999,
        1_000,
        9_999,
        10_001,
        17_975_591,
        100_000_001,
        RATE_LIMIT,
    ];
    for (step, rate) in rates.into_iter().enumerate() {
        script.call(STATION_SET_RATE, &[MILLISECOND * step as u64, rate]);
        send_at(script, 1, &[MILLISECOND * step as u64]);
    }
    for rate in REFUSED_RATES {
        script.call(STATION_SET_RATE, &[SECOND, rate]);
    }
    script.call(STATION_SET_RATE, &[SECOND, (1 << 32) + 5]);
    show(script, WRITERS);
}

/// 99 ECT(0) and one CE signal, as an RTT that is inflated does.
fn marks(script: &mut Script) {
    new(script, [1, 1, 1], &[(ECN_MODE, 1)], 0);
    for _ in 0..99 {
        script.call(STATION_TOS, &[0, ECT0]);
    }
    for tos in [0x100 + CE, 0xfc, u64::MAX] {
        script.call(STATION_TOS, &[0, tos]);
    }
    tick_at(script, &[0]);
}

/// A decrease whose product is above the rate: all has moved but the rate, and no budgets are told.
fn factor_one(script: &mut Script) {
    let one = bits(1.0);
    let changes = [(MD_HARD, one), (MD_SOFT, one), (MAX_RATE, 16_777_219)];
    new(script, [1, 1, 1], &changes, 0);
    register(script, 0, &[P0, P1, P2]);
    script.call(STATION_EAGAIN, &[0]);
    tick_at(script, &[SECOND, SECOND]);
    show(script, 3);
}

/// Signals of every kind until the rate is down, then ticks until it rises again; what waits is paced by it.
fn storm(script: &mut Script) {
    new(script, [1, 3, 2], &[(MAX_RATE, 60_000), (ECN_MODE, 2)], 0);
    register(script, 0, &[P1, P2, P0]);
    for round in 1..=12 {
        let time = 400 * MILLISECOND * round;
        script.call(STATION_RTT, &[time, round % 2, bits(10.0 * round as f32)]);
        script.call(STATION_NACKS, &[time, 40]);
        script.call(STATION_EAGAIN, &[time]);
        tick_at(script, &[time]);
        hand_in(script, time, round % 3, P1, LONGEST);
        send_at(script, round % 3, &[time]);
    }
    for round in 1..=8 {
        let time = 5 * SECOND + SECOND * round;
        tick_at(script, &[time]);
        send_at(script, round % 3, &[time]);
    }
}

/// 1, 2, 7; after a refused one the earlier goes on, its records too. A new one may be older than the last.
fn news(script: &mut Script) {
    new(script, [1, 1, 1], &[], 5);
    register(script, 5, &[P0]);
    hand_in(script, 5, 0, P1, 100);
    for change in REFUSED_CHANGES {
        settings_become(script, &[change]);
        script.call(STATION_NEW, &[TIME_LIMIT + 1]);
        script.call(STATION_NEW, &[5]);
    }
    settings_become(script, &[(QUEUE_P1, 513), (DECREASE, 0)]);
    script.call(STATION_NEW, &[3]);
    send_at(script, 0, &[5, 5]);
    new(script, [1, 1, 1], &[], 3);
    send_at(script, 0, &[3]);
    show(script, 1);
}
