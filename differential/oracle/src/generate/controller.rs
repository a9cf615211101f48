//! The controller: signals of every kind, ticks at the ends of its windows, full tables and refusals.

use crate::congestion::config::CongestionConfig;
use crate::generate::config::*;
use crate::generate::ecn;
use crate::generate::peers::Ids;
use crate::generate::rtt::{refused_samples, Samples};
use crate::generate::scorer::{next_end, step_beside};
use crate::generate::settings::*;
use crate::generate::times::Times;
use crate::generate::values::*;
use crate::operation::*;
use crate::play::controller::Controller;
use crate::play::pacer::class;
use crate::random::Random;
use crate::script::Script;

const MILLISECOND: u64 = 1_000_000;
const SECOND: u64 = 1_000_000_000;
const LARGEST: u64 = u32::MAX as u64;

const P0: u64 = 0;
const P1: u64 = 1;
const P2: u64 = 2;

const ECT0: u64 = 2;
const CE: u64 = 3;

pub fn boundary(script: &mut Script) {
    before_any_new(script);
    eagain(script);
    inflated(script);
    factor_one(script);
    nack_windows(script);
    nack_counts(script);
    ecn_off(script);
    ecn_on(script);
    increases(script);
    recovery(script);
    set_rates(script);
    writers(script);
    peers(script);
    order_of_numbers(script);
    at_limit(script);
    disabled(script);
    times(script);
    news(script);
}

/// The default settings with some changes, and a new controller at time 0.
fn new(script: &mut Script, changes: &[(u64, u64)]) {
    settings_become(script, changes);
    script.call(CONTROLLER_NEW, &[0]);
}

fn tick_at(script: &mut Script, times: &[u64]) {
    for &time in times {
        script.call(CONTROLLER_TICK, &[time]);
    }
}

/// A writer of each class, P0's with id 1.
fn three_writers(script: &mut Script) {
    for (id, class) in [(1, P0), (2, P1), (3, P2)] {
        script.call(CONTROLLER_REGISTER, &[id, class]);
    }
}

/// The default settings.
fn before_any_new(script: &mut Script) {
    tick_at(script, &[0]);
    script.call(CONTROLLER_EAGAIN, &[9]);
    tick_at(script, &[100 * MILLISECOND]);
}

/// EAGAIN, tick: score 60, hard, 100,000,000 to 50,000,000; writer 1 of P0 gets 10,000,000, writer 2 of P1 28,000,000.
pub fn eagain(script: &mut Script) {
    new(script, &[]);
    script.call(CONTROLLER_REGISTER, &[1, P0]);
    script.call(CONTROLLER_REGISTER, &[2, P1]);
    for time in [100, 200].map(|step| step * MILLISECOND) {
        script.call(CONTROLLER_EAGAIN, &[]);
        script.call(CONTROLLER_TICK, &[time]);
    }
}

/// RTT inflated at four ticks 100 ms apart: soft at the fourth only, 80,000,000.
pub fn inflated(script: &mut Script) {
    new(script, &[]);
    three_writers(script);
    for sample in [10.0, 200.0] {
        script.call(CONTROLLER_RTT, &[0, 7, bits(sample)]);
    }
    tick_at(
        script,
        &[100, 200, 300, 400, 500].map(|step| step * MILLISECOND),
    );
}

/// A decrease whose product is above the rate: all has moved but the rate, and no change is told.
pub fn factor_one(script: &mut Script) {
    let one = bits(1.0);
    let factors = [(MD_HARD, one), (MD_SOFT, one)];
    new(script, &[factors[0], factors[1], (MAX_RATE, 16_777_219)]);
    three_writers(script);
    script.call(CONTROLLER_NACKS, &[5]);
    script.call(CONTROLLER_EAGAIN, &[]);
    tick_at(script, &[SECOND, SECOND]);
    // 16,777,217 falls to 16,777,216
    script.call(CONTROLLER_NEW, &[0]);
    three_writers(script);
    script.call(CONTROLLER_SET_RATE, &[0, 16_777_217]);
    script.call(CONTROLLER_EAGAIN, &[]);
    tick_at(script, &[1]);
    // softly
    settings_become(script, &[factors[0], factors[1], (RTT_IMPULSE, 60)]);
    script.call(CONTROLLER_NEW, &[0]);
    script.call(CONTROLLER_SET_RATE, &[0, 99_999_999]);
    script.call(CONTROLLER_RTT, &[0, 1, bits(0.0)]);
    script.call(CONTROLLER_RTT, &[0, 1, bits(1.0)]);
    tick_at(script, &[1, 2]);
}

/// Looked at once a second has passed. Only at threshold 0 is there an impulse: the scorer is told of one NACK.
fn nack_windows(script: &mut Script) {
    for threshold in [0, 1, 10] {
        new(script, &[(NACK_THRESHOLD, threshold)]);
        script.call(CONTROLLER_NACKS, &[threshold + 1]);
        tick_at(script, &[SECOND - 1, SECOND]);
        // a window starts with the tick, late or not
        script.call(CONTROLLER_NACKS, &[threshold]);
        tick_at(script, &[2 * SECOND + 5, 3 * SECOND + 4]);
        script.call(CONTROLLER_NACKS, &[LARGEST]);
        tick_at(script, &[3 * SECOND + 5]);
    }
}

/// The count stops at the largest u32.
fn nack_counts(script: &mut Script) {
    new(script, &[(NACK_THRESHOLD, LARGEST)]);
    for count in [0, LARGEST - 1, 1, 1, LARGEST, 1 << 32] {
        script.call(CONTROLLER_NACKS, &[count]);
    }
    tick_at(script, &[SECOND]);
}

/// TOS bytes and CE marks are not looked at.
fn ecn_off(script: &mut Script) {
    new(script, &[]);
    for tos in [0, 1, ECT0, CE, 0x1ff] {
        script.call(CONTROLLER_TOS, &[tos]);
    }
    script.call(CONTROLLER_CE, &[]);
    tick_at(script, &[0]);
}

/// 99 ECT(0) and one CE signal, as an RTT that is inflated does; a CE mark at once.
fn ecn_on(script: &mut Script) {
    new(script, &[(ECN_MODE, 1)]);
    for _ in 0..99 {
        script.call(CONTROLLER_TOS, &[ECT0]);
    }
    script.call(CONTROLLER_TOS, &[CE]);
    tick_at(script, &[0]);
    new(script, &[(ECN_MODE, 2)]);
    for tos in [0, 0xfc, 1, ECT0, 0x102, u64::MAX] {
        script.call(CONTROLLER_TOS, &[tos]);
    }
    script.call(CONTROLLER_CE, &[]);
    script.call(CONTROLLER_CE, &[]);
    tick_at(script, &[0]);
}

/// At every tick once stable for the window, up to the largest rate.
fn increases(script: &mut Script) {
    new(script, &[]);
    three_writers(script);
    script.call(CONTROLLER_SET_RATE, &[0, 99_900_001]);
    tick_at(script, &[SECOND - 1, SECOND, SECOND + 1, SECOND + 2]);
    for step in [0, RATE_LIMIT] {
        new(script, &[(STABLE_WINDOW, 0), (AI_STEP, step)]);
        tick_at(script, &[0]);
        script.call(CONTROLLER_SET_RATE, &[0, 1]);
        tick_at(script, &[0, 0]);
    }
}

/// After the cooldown; an increase comes a window later.
fn recovery(script: &mut Script) {
    new(script, &[(DECAY, 1)]);
    three_writers(script);
    script.call(CONTROLLER_EAGAIN, &[]);
    let recovered = 300 * MILLISECOND;
    tick_at(script, &[0, recovered - 1, recovered]);
    let increased = recovered + SECOND;
    tick_at(script, &[increased - 1, increased]);
}

/// The rate is held to its ends, but the raw one is shared out and noted.
fn set_rates(script: &mut Script) {
    new(script, &[]);
    script.call(CONTROLLER_SET_RATE, &[1, 5_000_000]);
    three_writers(script);
    let rates = [
        0,
        1,
        9_999,
        10_000,
        17_975_591,
        100_000_001,
        RATE_LIMIT,
        (1 << 32) + 5,
    ];
    for rate in rates.into_iter().chain(REFUSED_RATES) {
        script.call(CONTROLLER_SET_RATE, &[2, rate]);
    }
    script.call(CONTROLLER_EAGAIN, &[]);
    tick_at(script, &[3]);
}

/// 64 writers; the next is 14, known ones are replaced.
fn writers(script: &mut Script) {
    new(script, &[]);
    for number in 0..65 {
        script.call(CONTROLLER_REGISTER, &[1_000 - 7 * number, number]);
    }
    script.call(CONTROLLER_EAGAIN, &[]);
    tick_at(script, &[0]);
    script.call(CONTROLLER_REGISTER, &[1_000, P2]);
    script.call(CONTROLLER_REGISTER, &[u64::MAX, P2]);
    script.call(CONTROLLER_SET_RATE, &[0, 60_000]);
}

/// 64 peers; the next is 14, known ones go on. The writers are there from before.
fn peers(script: &mut Script) {
    for peer in 0..65 {
        script.call(CONTROLLER_RTT, &[peer, 3 * peer, bits(peer as f32)]);
    }
    script.call(CONTROLLER_RTT, &[70, (1 << 32) + 3, bits(90.0)]);
    script.call(CONTROLLER_RTT, &[70, LARGEST, bits(90.0)]);
    for sample in [f32::NAN, -1.0, 1_000_001.0, f32::INFINITY] {
        script.call(CONTROLLER_RTT, &[70, 3, bits(sample)]);
    }
    tick_at(script, &[70]);
}

/// Writers and rates are as ever; signals and ticks do nothing but count, and no peer is entered.
fn disabled(script: &mut Script) {
    new(script, &[(ENABLED, 0), (ECN_MODE, 1)]);
    three_writers(script);
    script.call(CONTROLLER_EAGAIN, &[]);
    script.call(CONTROLLER_NACKS, &[50]);
    script.call(CONTROLLER_TOS, &[CE]);
    script.call(CONTROLLER_CE, &[]);
    script.call(CONTROLLER_RTT, &[5, 1, bits(1.0)]);
    tick_at(script, &[4, 6, 2 * SECOND]);
    script.call(CONTROLLER_RTT, &[SECOND, 1, bits(1.0)]);
    script.call(CONTROLLER_RTT, &[SECOND, 1, bits(-1.0)]);
    script.call(CONTROLLER_SET_RATE, &[2 * SECOND, 30_000_000]);
    script.call(CONTROLLER_SET_RATE, &[2 * SECOND, RATE_LIMIT + 1]);
    script.call(CONTROLLER_CALLS, &[CALL_LIMIT]);
    script.call(CONTROLLER_EAGAIN, &[]);
    script.call(CONTROLLER_RTT, &[2 * SECOND, 99, bits(1.0)]);
}

/// 4, 7, 17, 11, 14; 6, 7, 17, 11; 17, 14. Both tables are full from before, and the last time is 70.
fn order_of_numbers(script: &mut Script) {
    every_number(script);
    script.call(CONTROLLER_CALLS, &[CALL_LIMIT]);
    every_number(script);
    for signal in [CONTROLLER_EAGAIN, CONTROLLER_NACKS, CONTROLLER_CE] {
        script.call(signal, &[1]);
    }
    script.call(CONTROLLER_TOS, &[CE]);
    script.call(CONTROLLER_REGISTER, &[1_000, P1]);
    script.call(CONTROLLER_RTT, &[71, 3, bits(1.0)]);
    tick_at(script, &[71]);
}

/// Calls of which each is refused by the first number that is left.
fn every_number(script: &mut Script) {
    for time in [TIME_LIMIT + 1, 69, 70] {
        script.call(CONTROLLER_RTT, &[time, 64, u64::from(NAN)]);
        script.call(CONTROLLER_RTT, &[time, 64, bits(1.0)]);
        script.call(CONTROLLER_SET_RATE, &[time, RATE_LIMIT + 1]);
    }
    for time in [TIME_LIMIT + 1, 69] {
        script.call(CONTROLLER_SET_RATE, &[time, 1]);
        script.call(CONTROLLER_TICK, &[time]);
    }
    script.call(CONTROLLER_REGISTER, &[64, P1]);
}

fn at_limit(script: &mut Script) {
    for calls in [CALL_LIMIT - 3, CALL_LIMIT + 1, u64::MAX, CALL_LIMIT - 1] {
        script.call(CONTROLLER_CALLS, &[calls]);
        script.call(CONTROLLER_EAGAIN, &[]);
        script.call(CONTROLLER_REGISTER, &[1_000, P0]);
        tick_at(script, &[71]);
        script.call(CONTROLLER_SET_RATE, &[71, 40_000]);
    }
    script.call(CONTROLLER_CALLS, &[0]);
    tick_at(script, &[71]);
}

/// A signal without a time leaves the last one.
fn times(script: &mut Script) {
    settings_become(script, &[(COOLDOWN, LARGEST)]);
    script.call(CONTROLLER_NEW, &[TIME_LIMIT - 1]);
    script.call(CONTROLLER_EAGAIN, &[u64::MAX]);
    tick_at(script, &[TIME_LIMIT - 2, TIME_LIMIT + 1, u64::MAX]);
    script.call(CONTROLLER_RTT, &[TIME_LIMIT, 1, bits(1.0)]);
    tick_at(script, &[TIME_LIMIT - 1, TIME_LIMIT]);
    script.call(CONTROLLER_SET_RATE, &[TIME_LIMIT, 20_000]);
}

/// 1, 2, 7; after a refused one the earlier goes on.
fn news(script: &mut Script) {
    new(script, &[]);
    three_writers(script);
    for change in REFUSED_CHANGES {
        settings_become(script, &[change]);
        script.call(CONTROLLER_NEW, &[TIME_LIMIT + 1]);
    }
    settings_become(script, &[(QUEUE_P1, 513), (DECREASE, 0)]);
    script.call(CONTROLLER_NEW, &[3]);
    settings_become(script, &[]);
    for time in [TIME_LIMIT + 1, u64::MAX] {
        script.call(CONTROLLER_NEW, &[time]);
    }
    script.call(CONTROLLER_EAGAIN, &[]);
    tick_at(script, &[5]);
    script.call(CONTROLLER_NEW, &[TIME_LIMIT]);
    // a new controller may be older than the last one
    script.call(CONTROLLER_NEW, &[3]);
    tick_at(script, &[4]);
}

/// A controller, played along so that its times are known.
struct Run {
    controller: Controller,
    times: Times,
    /// The usual time between two ticks.
    step: u64,
    samples: Samples,
    peers: Ids,
    writers: Vec<u64>,
    packets: ecn::Traffic,
    traffic: Traffic,
}

/// How often what is called: parts of their sum.
struct Traffic {
    ticks: u64,
    eagain: u64,
    rtt: u64,
    nacks: u64,
    tos: u64,
    ce: u64,
    set_rates: u64,
    registers: u64,
}

impl Traffic {
    fn new(random: &mut Random) -> Self {
        Self {
            ticks: random.pick(&[10, 40, 80]),
            eagain: random.pick(&[0, 0, 1, 3, 15]),
            rtt: random.pick(&[0, 5, 30]),
            nacks: random.pick(&[0, 3, 15]),
            tos: random.pick(&[0, 1, 1]),
            ce: random.pick(&[0, 0, 1, 5]),
            set_rates: random.pick(&[0, 1, 8]),
            registers: random.pick(&[0, 1, 5]),
        }
    }

    /// Ticks and little else, so that the rate rises.
    fn calm() -> Self {
        Self {
            ticks: 97,
            eagain: 0,
            rtt: 0,
            nacks: 1,
            tos: 0,
            ce: 0,
            set_rates: 1,
            registers: 1,
        }
    }

    fn parts(&self) -> [(u64, u64); 8] {
        [
            (CONTROLLER_TICK, self.ticks),
            (CONTROLLER_EAGAIN, self.eagain),
            (CONTROLLER_RTT, self.rtt),
            (CONTROLLER_NACKS, self.nacks),
            (CONTROLLER_TOS, self.tos),
            (CONTROLLER_CE, self.ce),
            (CONTROLLER_SET_RATE, self.set_rates),
            (CONTROLLER_REGISTER, self.registers),
        ]
    }

    fn next(&self, random: &mut Random) -> u64 {
        let parts = self.parts();
        let mut left = random.below(parts.iter().map(|(_, part)| part).sum());
        for (operation, part) in parts {
            if left < part {
                return operation;
            }
            left -= part;
        }
        CONTROLLER_TICK
    }
}

pub fn episode(script: &mut Script, random: &mut Random, length: u64) {
    if length > 1_000 && random.percent(2) {
        return long_congestion(script);
    }
    let end = script.len() + length as usize;
    let mut run = make(script, random, length);
    while script.len() < end {
        if random.below(600) == 0 {
            run = make(script, random, length);
        }
        run.call(script, random);
    }
}

/// So many ticks in one cooldown that the congested time is above 2^64 nanoseconds.
fn long_congestion(script: &mut Script) {
    new(script, &[(TICK, LARGEST), (COOLDOWN, LARGEST)]);
    script.call(CONTROLLER_EAGAIN, &[]);
    for tick in 0..4_300 {
        script.call(CONTROLLER_TICK, &[MILLISECOND * tick]);
    }
}

/// A new controller with settings within the domain, now and then disabled for a short while.
fn make(script: &mut Script, random: &mut Random, length: u64) -> Run {
    let config = settings(script, random, length);
    let times = Times::new(random);
    let peers = random.pick(&[1, 1, 2, 3, 5, 64, 70]);
    script.call(CONTROLLER_NEW, &[times.now()]);
    let mut run = Run {
        controller: Controller::new(config, times.now()),
        times,
        step: random.pick(&[1, 10, 100, 100, 250, 1_000]) * MILLISECOND,
        samples: Samples::new(random),
        peers: Ids::of(random, peers),
        writers: writer_ids(random, length),
        packets: ecn::Traffic::new(random),
        traffic: Traffic::new(random),
    };
    run.fill(script, random, length);
    run
}

fn settings(script: &mut Script, random: &mut Random, length: u64) -> CongestionConfig {
    let mut settings = Settings::new(script);
    vary_scoring(&mut settings, script, random);
    if random.percent(70) {
        vary_rates(&mut settings, script, random);
    }
    if random.percent(40) {
        vary_shares(&mut settings, script, random);
    }
    let mode = random.pick(&[0, 1, 1, 2]);
    settings.set(script, ECN_MODE, mode);
    if length < 200 && random.percent(10) {
        settings.set(script, ENABLED, 0);
    }
    settings.config().clone()
}

/// More than there is room for in long episodes only.
fn writer_ids(random: &mut Random, length: u64) -> Vec<u64> {
    let count = match random.below(4) {
        0 => 1,
        1 if length > 150 => random.between(62, 70),
        _ => random.between(1, 6),
    };
    let small = random.percent(40);
    let id = |number| match small {
        true => number,
        false => random.word(),
    };
    (0..count).map(id).collect()
}

impl Run {
    /// Mostly the writers, and in some long episodes more peers than there is room for.
    fn fill(&mut self, script: &mut Script, random: &mut Random, length: u64) {
        if random.percent(80) {
            for id in self.writers.clone() {
                let class = random.below(3);
                self.register(script, id, class);
            }
        }
        if length > 300 && random.percent(8) {
            for peer in 0..66 {
                let (time, sample) = (self.times.now(), self.samples.next(random));
                self.rtt_sample(script, time, peer, sample);
            }
        }
    }

    fn call(&mut self, script: &mut Script, random: &mut Random) {
        match random.below(400) {
            0 | 1 => refused_new(script, random, CONTROLLER_NEW, self.times.now()),
            2 => self.at_call_limit(script, random),
            3..=8 => self.traffic = Traffic::new(random),
            9..=12 => self.traffic = Traffic::calm(),
            _ => self.usual_call(script, random),
        }
    }

    /// The call count comes near its limit, is used up, and is set back.
    fn at_call_limit(&mut self, script: &mut Script, random: &mut Random) {
        let left = random.below(4);
        self.set_calls(script, CALL_LIMIT - left);
        for _ in 0..left + random.between(1, 4) {
            self.usual_call(script, random);
        }
        self.set_calls(script, random.of_bits(39));
    }

    fn set_calls(&mut self, script: &mut Script, calls: u64) {
        script.call(CONTROLLER_CALLS, &[calls]);
        self.controller.set_calls(calls);
    }

    /// About one call with a time in 30 is refused by it.
    fn usual_call(&mut self, script: &mut Script, random: &mut Random) {
        let operation = self.traffic.next(random);
        match operation {
            CONTROLLER_TICK => {
                let time = self.tick_time(random);
                self.tick(script, time);
            }
            CONTROLLER_RTT => {
                let time = self.time(random);
                let (peer, sample) = self.peer_and_sample(random);
                self.rtt_sample(script, time, peer, sample);
            }
            CONTROLLER_SET_RATE => {
                let (time, rate) = (self.time(random), self.rate(random));
                self.set_rate(script, time, rate);
            }
            CONTROLLER_REGISTER => {
                let (id, class) = self.id_and_class(random);
                self.register(script, id, class);
            }
            CONTROLLER_NACKS => {
                let count = self.nack_count(random);
                self.signal(script, operation, count);
            }
            CONTROLLER_TOS => self.packets(script, random),
            _ => {
                for _ in 0..random.pick(&[1, 1, 2, 5]) {
                    self.signal(script, operation, 0);
                }
            }
        }
    }

    /// Some times are those at which a window or the cooldown ends, or one nanosecond beside it.
    fn tick_time(&mut self, random: &mut Random) -> u64 {
        let controller = self.controller.controller();
        let nack_end = controller.nack_window_start().nanoseconds() + SECOND;
        let step = match random.below(30) {
            0 => return self.times.refused(random),
            1 | 2 => 0,
            3 => 1,
            4..=7 => step_beside(nack_end, &self.times, random),
            8..=11 => step_beside(next_end(controller.scorer()), &self.times, random),
            12 => return self.times.next(random),
            _ => self.step,
        };
        self.times.advance(step)
    }

    fn time(&mut self, random: &mut Random) -> u64 {
        let step = match random.below(30) {
            0 => return self.times.refused(random),
            1..=15 => 0,
            _ => random.below(self.step),
        };
        self.times.advance(step)
    }

    fn peer_and_sample(&mut self, random: &mut Random) -> (u64, u64) {
        let sample = if random.percent(3) {
            random.pick(&refused_samples())
        } else {
            self.samples.next(random)
        };
        (self.peers.next(random), widened(random, sample, 32))
    }

    fn rate(&self, random: &mut Random) -> u64 {
        let config = self.controller.controller().config();
        let (least, largest) = (config.min_rate_bps.into(), config.max_rate_bps.into());
        let rate = match random.below(8) {
            0 => random.pick(&REFUSED_RATES),
            1 => random.pick(&[0, 1, RATE_LIMIT]),
            2 => random.pick(&[least, least - 1, largest, RATE_LIMIT.min(largest + 1)]),
            3 | 4 => random.between(least, largest),
            _ => rate(random),
        };
        widened(random, rate, 32)
    }

    fn id_and_class(&self, random: &mut Random) -> (u64, u64) {
        let id = match random.below(8) {
            0 => random.of_bits(64),
            _ => random.pick(&self.writers),
        };
        let turns = if random.percent(3) {
            random.below(1 << 60)
        } else {
            0
        };
        (id, random.below(3) + 3 * turns)
    }

    fn nack_count(&self, random: &mut Random) -> u64 {
        let threshold = u64::from(self.controller.controller().config().nack_rate_threshold);
        let count = match random.below(4) {
            0 => random.pick(&[0, 1, LARGEST]),
            1 => random.pick(&[threshold, LARGEST.min(threshold + 1)]),
            2 => random.of_bits(32),
            _ => random.below(12),
        };
        widened(random, count, 32)
    }

    /// Often as many as a window has.
    fn packets(&mut self, script: &mut Script, random: &mut Random) {
        for _ in 0..random.pick(&[1, 5, 40, 100, 101]) {
            let tos = self.packets.tos(random);
            self.signal(script, CONTROLLER_TOS, tos);
        }
    }

    fn register(&mut self, script: &mut Script, id: u64, number: u64) {
        script.call(CONTROLLER_REGISTER, &[id, number]);
        self.controller.register(id, class(number));
    }

    fn tick(&mut self, script: &mut Script, time: u64) {
        script.call(CONTROLLER_TICK, &[time]);
        self.controller.tick(time);
    }

    fn signal(&mut self, script: &mut Script, operation: u64, argument: u64) {
        script.call(operation, &[argument]);
        self.controller.signal(operation, argument);
    }

    fn rtt_sample(&mut self, script: &mut Script, time: u64, peer: u64, sample: u64) {
        script.call(CONTROLLER_RTT, &[time, peer, sample]);
        let sample = f32::from_bits(sample as u32);
        self.controller.rtt_sample(time, peer as u32, sample);
    }

    fn set_rate(&mut self, script: &mut Script, time: u64, rate: u64) {
        script.call(CONTROLLER_SET_RATE, &[time, rate]);
        self.controller.set_rate(time, rate as u32);
    }
}
