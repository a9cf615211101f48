//! Random lists of calls on stations, played along so that it is known what is told.

use crate::congestion::coalescing::InstanceKey;
use crate::congestion::config::CongestionConfig;
use crate::congestion::writer_pacer::SendAction;
use crate::generate::config::*;
use crate::generate::ecn;
use crate::generate::peers::Ids;
use crate::generate::records::*;
use crate::generate::rtt::{refused_samples, Samples};
use crate::generate::scorer::{next_end, step_beside};
use crate::generate::settings::*;
use crate::generate::times::Times;
use crate::generate::values::*;
use crate::operation::*;
use crate::play::pacer::class;
use crate::random::Random;
use crate::script::Script;
use crate::station::{Handed, Station};

use super::{MILLISECOND, P0, P1, P2, REFUSED_RATES, SECOND, WRITERS};

const LARGEST: u64 = u32::MAX as u64;

/// The most slots that four writers can be lent.
const POOL_SLOTS: u64 = 768;

struct Run {
    station: Station,
    lending: Lending,
    buffer: Buffer,
    keys: Keys,
    times: Times,
    /// The usual time between two ticks.
    step: u64,
    ids: Vec<u64>,
    samples: Samples,
    peers: Ids,
    packets: ecn::Traffic,
    traffic: Traffic,
    /// For each pacer, when the wait is over that it was told last.
    over: [u64; WRITERS as usize],
}

/// How often what is called: parts of their sum. Then the classes of hand-ins, in parts of 100.
struct Traffic {
    calls: [(u64, u64); 9],
    p0: u64,
    p1: u64,
    /// P2 records that are short.
    short_p2: u64,
}

impl Traffic {
    fn new(random: &mut Random) -> Self {
        let signals = random.pick(&[0, 1, 1, 10, 60]);
        let mut some = |parts: &[u64]| random.pick(parts);
        Self {
            calls: [
                (STATION_REGISTER, some(&[0, 1, 2])),
                (STATION_EAGAIN, signals * some(&[0, 1, 1])),
                (STATION_TOS, some(&[0, 0, 1])),
                (STATION_NACKS, signals * some(&[0, 1])),
                (STATION_RTT, signals * some(&[0, 1, 3])),
                (STATION_TICK, some(&[1, 5, 40])),
                (STATION_SET_RATE, some(&[0, 1, 1, 10])),
                (STATION_HAND_IN, some(&[30, 50, 80])),
                (STATION_SEND, some(&[20, 40, 60])),
            ],
            p0: some(&[0, 5, 30, 60]),
            p1: some(&[5, 40, 60, 90]),
            short_p2: some(&[0, 50, 100]),
        }
    }

    /// Ticks and little else, so that the rate rises.
    fn calm(random: &mut Random) -> Self {
        let mut traffic = Self::new(random);
        for (operation, part) in &mut traffic.calls {
            *part = match *operation {
                STATION_TICK => 90,
                STATION_HAND_IN | STATION_SEND => 5,
                _ => 0,
            };
        }
        traffic
    }

    fn next(&self, random: &mut Random) -> u64 {
        let mut left = random.below(self.calls.iter().map(|(_, part)| part).sum());
        for (operation, part) in self.calls {
            if left < part {
                return operation;
            }
            left -= part;
        }
        STATION_SEND
    }
}

/// What is wrong with a call.
struct Faults {
    time: bool,
    /// A record, a sample or a rate beyond its range.
    beyond: bool,
    pool: bool,
    pacer: bool,
}

impl Faults {
    fn new(random: &mut Random, percent: u64) -> Self {
        let [time, beyond, pool, pacer] = random.faults(percent);
        Self {
            time,
            beyond,
            pool,
            pacer,
        }
    }
}

/// One station after another, each for a part of the calls.
pub fn episode(script: &mut Script, random: &mut Random, length: u64) {
    let end = script.len() + length as usize;
    let mut run = make(script, random, length);
    while script.len() < end {
        if random.below(500) == 0 {
            run = make(script, random, length);
        }
        run.call(script, random);
    }
    run.show(script);
}

/// A new station with settings within the domain, mostly with some writers.
fn make(script: &mut Script, random: &mut Random, length: u64) -> Run {
    let limits = limits(random, length);
    let config = settings(script, random, limits, length);
    let times = Times::new(random);
    let peers = random.pick(&[1, 1, 2, 3, 5, 64, 70]);
    script.call(STATION_NEW, &[times.now()]);
    let mut run = Run {
        station: Station::new(&config, times.now()).expect("the settings are accepted"),
        lending: Lending::new(script, random, WRITERS * limits.iter().sum::<u64>()),
        buffer: Buffer::new(script, random),
        keys: Keys::new(random, limits[2]),
        times,
        step: random.pick(&[1, 10, 100, 100, 250, 1_000]) * MILLISECOND,
        ids: ids(random),
        samples: Samples::new(random),
        peers: Ids::of(random, peers),
        packets: ecn::Traffic::new(random),
        traffic: Traffic::new(random),
        over: [0; WRITERS as usize],
    };
    run.begin(script, random, length);
    run
}

/// Of P0, P1 and P2. Long rings in long episodes only, and now and then more than the pool has room for.
fn limits(random: &mut Random, length: u64) -> [u64; 3] {
    match random.below(16) {
        0 | 1 => [1, 1, 1],
        2 | 3 => [2, 4, 2],
        4 => [2, 2, 3],
        5 if length < 100 => random.pick(&[[100, 500, 100], [1, POOL_SLOTS / WRITERS - 1, 1]]),
        5 if length > 300 => [20, POOL_SLOTS / WRITERS - 40, 20],
        6 | 7 if length > 40 => [
            random.between(1, 20),
            random.between(1, 40),
            random.between(1, 20),
        ],
        _ => [
            random.between(1, 3),
            random.between(1, 5),
            random.between(1, 5),
        ],
    }
}

fn settings(
    script: &mut Script,
    random: &mut Random,
    limits: [u64; 3],
    length: u64,
) -> CongestionConfig {
    let mut settings = Settings::new(script);
    for (field, limit) in [QUEUE_P0, QUEUE_P1, QUEUE_P2].into_iter().zip(limits) {
        settings.set(script, field, limit);
    }
    vary_scoring(&mut settings, script, random);
    if random.percent(30) {
        vary_rates(&mut settings, script, random);
    } else {
        slow_rates(&mut settings, script, random);
    }
    if random.percent(40) {
        vary_shares(&mut settings, script, random);
    }
    settings.set(script, ECN_MODE, random.below(3));
    if length < 200 && random.percent(8) {
        settings.set(script, ENABLED, 0);
    }
    settings.config().clone()
}

/// Rates at which tokens run out.
fn slow_rates(settings: &mut Settings, script: &mut Script, random: &mut Random) {
    let least = match random.below(4) {
        0 => random.pick(&[1, 2, 999, 1_000, 10_000, 15_010]),
        1 => 1,
        _ => random.between(1, 15_000),
    };
    let largest = least + random.of_bits(18);
    settings.set(script, MIN_RATE, least);
    settings.set(script, MAX_RATE, largest);
    settings.set(script, AI_STEP, random.of_bits(14));
    if random.percent(50) {
        settings.set(script, P0_MIN, random.of_bits(14));
    }
}

/// Up to two more than there is room for.
fn ids(random: &mut Random) -> Vec<u64> {
    let small = random.percent(40);
    let id = |number| match small {
        true => number,
        false => random.word(),
    };
    (0..WRITERS + 2).map(id).collect()
}

impl Run {
    /// Mostly some writers and the rate they share, and in some long episodes more peers than there is room for.
    fn begin(&mut self, script: &mut Script, random: &mut Random, length: u64) {
        let now = self.times.now();
        if random.percent(90) {
            for place in 0..random.between(1, WRITERS) as usize {
                let (id, class) = (self.ids[place], random.below(3));
                self.register(script, now, id, class);
            }
        }
        if random.percent(50) {
            let rate = self.rate(random);
            self.set_rate(script, now, rate);
        }
        if length > 300 && random.percent(5) {
            for peer in 0..66 {
                let sample = self.samples.next(random);
                self.rtt(script, now, peer, sample);
            }
        }
    }

    fn call(&mut self, script: &mut Script, random: &mut Random) {
        self.lending.show_at_times(script, random);
        match random.below(400) {
            0 | 1 => refused_new(script, random, STATION_NEW, self.times.now()),
            2 => self.at_call_limit(script, random),
            3..=8 => self.traffic = Traffic::new(random),
            9..=10 => self.traffic = Traffic::calm(random),
            11..=14 => self.show(script),
            15..=18 => script.call(STATION_PLACE, &[random.of_bits(10)]),
            _ => {
                let faults = Faults::new(random, 8);
                self.usual_call(script, random, faults);
            }
        }
    }

    /// The whole state.
    fn show(&self, script: &mut Script) {
        script.call(STATION_CONTROLLER, &[]);
        for pacer in 0..WRITERS {
            script.call(STATION_PLACE, &[pacer]);
        }
    }

    /// The call count comes near its limit, is used up, and is set back.
    fn at_call_limit(&mut self, script: &mut Script, random: &mut Random) {
        let left = random.below(4);
        self.set_calls(script, CALL_LIMIT - left);
        for _ in 0..left + random.between(1, 4) {
            let faults = Faults::new(random, 25);
            self.usual_call(script, random, faults);
        }
        self.set_calls(script, random.of_bits(39));
    }

    fn set_calls(&mut self, script: &mut Script, calls: u64) {
        script.call(STATION_CALLS, &[calls]);
        self.station.ledger.calls = calls;
    }

    fn usual_call(&mut self, script: &mut Script, random: &mut Random, faults: Faults) {
        if faults.pool {
            self.lending.shorten(script, random);
        }
        match self.traffic.next(random) {
            STATION_HAND_IN => self.some_hand_in(script, random, &faults),
            STATION_SEND => self.some_send(script, random, &faults),
            operation => self.steering(script, random, operation, &faults),
        }
        if faults.pool {
            self.lending.restore(script);
        }
    }

    /// A call that concerns no record.
    fn steering(
        &mut self,
        script: &mut Script,
        random: &mut Random,
        operation: u64,
        faults: &Faults,
    ) {
        let time = match operation {
            _ if faults.time => self.times.refused(random),
            STATION_TICK => self.tick_time(random),
            _ => self.time(random),
        };
        match operation {
            STATION_REGISTER => {
                let (id, class) = self.id_and_class(random);
                self.register(script, time, id, class);
            }
            STATION_TOS => self.packets(script, random, time),
            STATION_RTT => {
                let (peer, sample) = self.peer_and_sample(random, faults.beyond);
                self.rtt(script, time, peer, sample);
            }
            STATION_SET_RATE => {
                let rate = match faults.beyond {
                    true => random.pick(&REFUSED_RATES),
                    false => self.rate(random),
                };
                self.set_rate(script, time, rate);
            }
            _ => self.signal_or_tick(script, random, operation, time),
        }
    }

    fn signal_or_tick(
        &mut self,
        script: &mut Script,
        random: &mut Random,
        operation: u64,
        time: u64,
    ) {
        match operation {
            STATION_TICK => {
                script.call(STATION_TICK, &[time]);
                self.station.tick(time);
            }
            STATION_NACKS => {
                let count = self.nack_count(random);
                script.call(STATION_NACKS, &[time, count]);
                self.station.nacks(time, count as u32);
            }
            _ => {
                for _ in 0..random.pick(&[1, 1, 2, 5]) {
                    script.call(STATION_EAGAIN, &[time]);
                    self.station.eagain(time);
                }
            }
        }
    }

    /// Some times are those at which a window or the cooldown ends, or one nanosecond beside it.
    fn tick_time(&mut self, random: &mut Random) -> u64 {
        let controller = &self.station.controller;
        let nack_end = controller.nack_window_start().nanoseconds() + SECOND;
        let step = match random.below(30) {
            0..=5 => 0,
            6 => 1,
            7..=10 => step_beside(nack_end, &self.times, random),
            11..=14 => step_beside(next_end(controller.scorer()), &self.times, random),
            15 => return self.times.next(random),
            _ => self.step,
        };
        self.times.advance(step)
    }

    /// Mostly the time of the last call.
    fn time(&mut self, random: &mut Random) -> u64 {
        let step = match random.below(30) {
            0..=25 => 0,
            26 => 1,
            _ => random.below(self.step),
        };
        self.times.advance(step)
    }

    fn pacer(&self, random: &mut Random, unknown: bool) -> u64 {
        let count = self.station.writers.len() as u64;
        if unknown || count == 0 {
            random.pick(&[count, WRITERS, 255, 256 + count])
        } else {
            let turns = if random.percent(2) {
                random.below(1 << 50)
            } else {
                0
            };
            random.below(count) + 256 * turns
        }
    }

    fn some_hand_in(&mut self, script: &mut Script, random: &mut Random, faults: &Faults) {
        let time = match faults.time {
            true => self.times.refused(random),
            false => self.time(random),
        };
        if faults.beyond {
            self.buffer.too_long(script, random);
        } else {
            self.buffer.next(script, random);
        }
        let class = if random.percent(self.traffic.p0) {
            P0
        } else if random.percent(self.traffic.p1) {
            P1
        } else {
            P2
        };
        if class == P2 && !faults.beyond && random.percent(self.traffic.short_p2) {
            self.buffer.short(script, random);
        }
        let (pacer, key) = (self.pacer(random, faults.pacer), self.keys.next(random));
        self.hand_in(script, time, pacer, class + 3 * random.below(2), key);
    }

    /// Where a wait is told, it is often tried again once it is over.
    fn some_send(&mut self, script: &mut Script, random: &mut Random, faults: &Faults) {
        let pacer = self.pacer(random, faults.pacer);
        let time = match faults.time {
            true => self.times.refused(random),
            false => self.send_time(random, pacer),
        };
        if self.send(script, time, pacer) && random.percent(60) {
            self.wait_and_send(script, random, pacer);
        }
    }

    /// Signals, which do not concern the pacer; then a send attempt one nanosecond before its wait is over, at its end,
    /// one after or later.
    fn wait_and_send(&mut self, script: &mut Script, random: &mut Random, pacer: u64) {
        for _ in 0..random.below(3) {
            let signal = random.pick(&[STATION_EAGAIN, STATION_NACKS, STATION_RTT]);
            let faults = Faults::new(random, 30);
            self.steering(script, random, signal, &faults);
        }
        let over = self.over[usize::from(pacer as u8)];
        let left = over.saturating_sub(self.times.now());
        let step = match random.below(6) {
            0 => left.saturating_sub(1),
            1 => left,
            2 => left + random.of_bits(40),
            _ => left + 1,
        };
        let time = self.times.advance(step);
        self.send(script, time, pacer);
    }

    fn send_time(&mut self, random: &mut Random, pacer: u64) -> u64 {
        let over = self.over.get(pacer as usize).copied().unwrap_or(0);
        let writer = self.station.writers.get(pacer as usize);
        let rate = writer.map_or(1, |writer| writer.pacer.rate().max(1));
        let earned = random.of_bits(11) * SECOND / u64::from(rate);
        let step = match random.below(12) {
            0..=3 => 0,
            4 => 1,
            5..=8 if over >= self.times.now() => step_beside(over, &self.times, random),
            5..=9 => (earned + random.below(3)).saturating_sub(1),
            10 => random.below(3) * SECOND,
            _ => return self.times.next(random),
        };
        self.times.advance(step)
    }

    fn peer_and_sample(&mut self, random: &mut Random, beyond: bool) -> (u64, u64) {
        let sample = match beyond {
            true => random.pick(&refused_samples()),
            false => self.samples.next(random),
        };
        (self.peers.next(random), widened(random, sample, 32))
    }

    fn rate(&self, random: &mut Random) -> u64 {
        let config = &self.station.settings;
        let (least, largest) = (config.min_rate_bps.into(), config.max_rate_bps.into());
        let rate = match random.below(8) {
            0 => random.pick(&[0, 1, RATE_LIMIT]),
            1 => random.pick(&[least, least - 1, largest, RATE_LIMIT.min(largest + 1)]),
            2 => rate(random),
            _ => random.between(least, RATE_LIMIT.min(4 * largest)),
        };
        widened(random, rate, 32)
    }

    fn id_and_class(&self, random: &mut Random) -> (u64, u64) {
        let id = match random.below(8) {
            0 => random.of_bits(64),
            _ => random.pick(&self.ids),
        };
        (id, random.below(3) + 3 * random.below(2))
    }

    fn nack_count(&self, random: &mut Random) -> u64 {
        let threshold = u64::from(self.station.settings.nack_rate_threshold);
        let count = match random.below(4) {
            0 => random.pick(&[0, 1, LARGEST]),
            1 => random.pick(&[threshold, LARGEST.min(threshold + 1)]),
            _ => random.below(12),
        };
        widened(random, count, 32)
    }

    /// Sometimes as many as a window has.
    fn packets(&mut self, script: &mut Script, random: &mut Random, time: u64) {
        for _ in 0..random.pick(&[1, 1, 5, 20, 100]) {
            let tos = self.packets.tos(random);
            script.call(STATION_TOS, &[time, tos]);
            self.station.tos(time, tos as u8);
        }
    }

    fn register(&mut self, script: &mut Script, time: u64, id: u64, number: u64) {
        script.call(STATION_REGISTER, &[time, id, number]);
        self.station.register(time, id, class(number));
    }

    fn rtt(&mut self, script: &mut Script, time: u64, peer: u64, sample: u64) {
        script.call(STATION_RTT, &[time, peer, sample]);
        let sample = f32::from_bits(sample as u32);
        self.station.rtt(time, peer as u32, sample);
    }

    fn set_rate(&mut self, script: &mut Script, time: u64, rate: u64) {
        script.call(STATION_SET_RATE, &[time, rate]);
        self.station.set_rate(time, rate as u32);
    }

    fn hand_in(
        &mut self,
        script: &mut Script,
        time: u64,
        pacer: u64,
        number: u64,
        (topic, key): (u64, u64),
    ) {
        script.call(STATION_HAND_IN, &[time, pacer, number, topic, key]);
        let handed = Handed {
            class: class(number),
            key: InstanceKey::new(topic, key),
            bytes: self.buffer.bytes(),
        };
        let pool = self.lending.pool.lent_mut();
        self.station
            .hand_in(time, usize::from(pacer as u8), &handed, pool);
    }

    /// Whether a wait is told.
    fn send(&mut self, script: &mut Script, time: u64, pacer: u64) -> bool {
        script.call(STATION_SEND, &[time, pacer]);
        let place = usize::from(pacer as u8);
        let (_, action) = self.station.send(time, place, self.lending.pool.lent());
        let SendAction::RateLimited { wait_time } = action else {
            return false;
        };
        self.over[place] = time + wait_time.as_nanos() as u64;
        true
    }
}
