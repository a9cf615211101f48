//! The scorer: signals in calm and in storm, ticks at the ends of cooldown and stable window, and refusals.

use crate::congestion::scorer::CongestionScorer;
use crate::generate::config::*;
use crate::generate::settings::*;
use crate::generate::times::Times;
use crate::generate::values::*;
use crate::operation::*;
use crate::play::scorer::Scorer;
use crate::random::Random;
use crate::script::Script;

const MILLISECOND: u64 = 1_000_000;
const SECOND: u64 = 1_000_000_000;
const LARGEST: u64 = u32::MAX as u64;

pub fn boundary(script: &mut Script) {
    before_any_new(script);
    eagain(script);
    inflated(script);
    impulses(script);
    losses(script);
    nacks(script);
    cooldown(script);
    stable_window(script);
    recovery(script);
    soft(script);
    thresholds(script);
    tick_intervals(script);
    underflow(script);
    order_of_numbers(script);
    at_limit(script);
    times(script);
    news(script);
}

/// The default settings with some changes, and a new scorer at time 0.
fn new(script: &mut Script, changes: &[(u64, u64)]) {
    settings_become(script, changes);
    script.call(SCORER_NEW, &[0]);
}

fn signals(script: &mut Script, operation: u64, count: u64) {
    for _ in 0..count {
        script.call(operation, &[]);
    }
}

fn tick_at(script: &mut Script, times: &[u64]) {
    for &time in times {
        script.call(SCORER_TICK, &[time]);
    }
}

/// The default settings.
fn before_any_new(script: &mut Script) {
    for signal in [SCORER_RTT, SCORER_NACK, SCORER_LOSS, SCORER_EAGAIN] {
        script.call(signal, &[7]);
    }
    tick_at(script, &[SECOND, SECOND]);
}

/// EAGAIN, tick: score 60, hard. One EAGAIN a tick decreases once.
pub fn eagain(script: &mut Script) {
    new(script, &[]);
    for time in [100, 200, 300].map(|step| step * MILLISECOND) {
        script.call(SCORER_EAGAIN, &[]);
        script.call(SCORER_TICK, &[time]);
    }
}

/// RTT inflated at four ticks 100 ms apart: soft at the fourth only.
pub fn inflated(script: &mut Script) {
    new(script, &[]);
    for time in [100, 200, 300, 400, 500].map(|step| step * MILLISECOND) {
        script.call(SCORER_RTT, &[]);
        script.call(SCORER_TICK, &[time]);
    }
}

/// Each signal's own, all together, and the score's upper end.
fn impulses(script: &mut Script) {
    new(script, &[(DECAY, 1), (NACK_THRESHOLD, 0), (DECREASE, 255)]);
    let all = [SCORER_EAGAIN, SCORER_RTT, SCORER_NACK, SCORER_LOSS];
    for signal in all {
        signals(script, signal, 2);
        script.call(SCORER_TICK, &[5]);
    }
    for signal in all {
        script.call(signal, &[]);
    }
    signals(script, SCORER_LOSS, 5);
    tick_at(script, &[5, 5]);
    let none = [(EAGAIN_IMPULSE, 0), (RTT_IMPULSE, 0), (NACK_IMPULSE, 0)];
    for changes in [none, none.map(|(field, _)| (field, 255))] {
        new(script, &changes);
        for signal in all {
            script.call(signal, &[]);
        }
        tick_at(script, &[5, 5]);
    }
}

/// 5 each, 30 at most.
fn losses(script: &mut Script) {
    new(script, &[(DECAY, 1), (DECREASE, 255)]);
    for count in [1, 2, 6, 7, 10] {
        signals(script, SCORER_LOSS, count);
        script.call(SCORER_TICK, &[count]);
    }
}

/// A count above the threshold.
fn nacks(script: &mut Script) {
    for threshold in [0, 1, 3] {
        new(script, &[(NACK_THRESHOLD, threshold)]);
        for count in [threshold, threshold + 1] {
            signals(script, SCORER_NACK, count);
            script.call(SCORER_TICK, &[0]);
        }
    }
    new(script, &[(NACK_THRESHOLD, LARGEST)]);
    signals(script, SCORER_NACK, 2);
    script.call(SCORER_TICK, &[0]);
}

/// No recovery before its end, whatever the score; then at once.
fn cooldown(script: &mut Script) {
    for cooldown in [0, 300, LARGEST] {
        new(script, &[(DECAY, 1), (COOLDOWN, cooldown)]);
        script.call(SCORER_EAGAIN, &[]);
        script.call(SCORER_TICK, &[7]);
        let end = 7 + cooldown * MILLISECOND;
        tick_at(script, &[7.max(end - 1), end, end + 1]);
    }
    new(script, &[(DECAY, 1)]);
    script.call(SCORER_EAGAIN, &[]);
    tick_at(script, &[0, 300 * MILLISECOND + 1, 400 * MILLISECOND]);
}

/// An increase at its end and at every tick past it; a recovery starts it anew.
fn stable_window(script: &mut Script) {
    for window in [0, 1_000, LARGEST] {
        new(script, &[(DECAY, 1), (STABLE_WINDOW, window)]);
        let end = window * MILLISECOND;
        tick_at(script, &[end.saturating_sub(1), end, end + 1]);
        script.call(SCORER_EAGAIN, &[]);
        let congested = end + SECOND;
        tick_at(script, &[congested, congested + SECOND]);
        let end = congested + SECOND + end;
        tick_at(script, &[end - 1, end, end + 1]);
    }
    // at a score above the threshold of the increase, too
    new(script, &[(RTT_IMPULSE, 59)]);
    script.call(SCORER_RTT, &[]);
    script.call(SCORER_TICK, &[SECOND]);
}

/// A score of 30 recovers, one of 31 does not.
fn recovery(script: &mut Script) {
    new(script, &[(DECAY, 1), (COOLDOWN, 0), (RTT_IMPULSE, 31)]);
    script.call(SCORER_EAGAIN, &[]);
    script.call(SCORER_TICK, &[0]);
    script.call(SCORER_RTT, &[]);
    script.call(SCORER_TICK, &[1]);
    signals(script, SCORER_LOSS, 6);
    tick_at(script, &[2, 3]);
    for hysteresis in [0, 255] {
        new(script, &[(COOLDOWN, 0), (HYSTERESIS, hysteresis)]);
        for time in 0..4 {
            script.call(SCORER_EAGAIN, &[]);
            script.call(SCORER_TICK, &[time]);
        }
    }
}

/// EAGAIN that is not hard; other signals never are.
fn soft(script: &mut Script) {
    new(script, &[(EAGAIN_IS_HARD, 0)]);
    script.call(SCORER_EAGAIN, &[]);
    script.call(SCORER_TICK, &[0]);
    new(script, &[(RTT_IMPULSE, 60), (EAGAIN_IMPULSE, 0)]);
    script.call(SCORER_RTT, &[]);
    script.call(SCORER_TICK, &[0]);
    // an EAGAIN of no impulse makes it hard
    script.call(SCORER_NEW, &[0]);
    script.call(SCORER_RTT, &[]);
    script.call(SCORER_EAGAIN, &[]);
    script.call(SCORER_TICK, &[0]);
}

/// At a threshold of 100 the highest score is a decrease, above it none is.
fn thresholds(script: &mut Script) {
    let pairs = [(1, 0), (100, 99), (101, 100), (255, 254)];
    for (decrease, increase) in pairs {
        let both = [(DECREASE, decrease), (INCREASE, increase)];
        new(script, &[both[0], both[1], (EAGAIN_IMPULSE, 255)]);
        script.call(SCORER_LOSS, &[]);
        script.call(SCORER_TICK, &[0]);
        script.call(SCORER_EAGAIN, &[]);
        tick_at(script, &[0, SECOND]);
    }
}

/// The congested time grows by the interval of the settings, however far apart the ticks are.
fn tick_intervals(script: &mut Script) {
    for interval in [0, 1, LARGEST] {
        new(script, &[(TICK, interval)]);
        script.call(SCORER_EAGAIN, &[]);
        tick_at(script, &[3, 3, 4, 4]);
    }
}

/// The score halves to the smallest float above 0 and stays there.
fn underflow(script: &mut Script) {
    new(script, &[(DECAY, bits(0.5f32.next_up()))]);
    script.call(SCORER_LOSS, &[]);
    tick_at(script, &[MILLISECOND; 156]);
}

/// 7, 17, 11; 17 alone for a signal.
fn order_of_numbers(script: &mut Script) {
    settings_become(script, &[]);
    script.call(SCORER_NEW, &[10]);
    script.call(SCORER_EAGAIN, &[]);
    tick_at(script, &[TIME_LIMIT + 1, 9]);
    script.call(SCORER_CALLS, &[CALL_LIMIT]);
    tick_at(script, &[TIME_LIMIT + 1, 9, 10]);
    for signal in SCORER_EAGAIN..SCORER_TICK {
        script.call(signal, &[]);
    }
}

fn at_limit(script: &mut Script) {
    for calls in [CALL_LIMIT - 3, CALL_LIMIT + 1, u64::MAX, CALL_LIMIT - 1] {
        script.call(SCORER_CALLS, &[calls]);
        script.call(SCORER_LOSS, &[]);
        script.call(SCORER_RTT, &[]);
        tick_at(script, &[11, 11]);
    }
    script.call(SCORER_CALLS, &[0]);
    script.call(SCORER_TICK, &[11]);
}

/// A signal leaves the last time.
fn times(script: &mut Script) {
    settings_become(script, &[(COOLDOWN, LARGEST), (STABLE_WINDOW, 0)]);
    script.call(SCORER_NEW, &[TIME_LIMIT - 1]);
    script.call(SCORER_EAGAIN, &[u64::MAX]);
    tick_at(script, &[TIME_LIMIT - 2, TIME_LIMIT + 1, u64::MAX]);
    tick_at(script, &[TIME_LIMIT, TIME_LIMIT - 1, TIME_LIMIT]);
}

/// 1, 2, 7; after a refused one the earlier goes on.
fn news(script: &mut Script) {
    new(script, &[]);
    script.call(SCORER_EAGAIN, &[]);
    for change in REFUSED_CHANGES {
        settings_become(script, &[change]);
        script.call(SCORER_NEW, &[TIME_LIMIT + 1]);
    }
    settings_become(script, &[(QUEUE_P1, 513), (DECREASE, 0)]);
    script.call(SCORER_NEW, &[3]);
    settings_become(script, &[]);
    for time in [TIME_LIMIT + 1, u64::MAX] {
        script.call(SCORER_NEW, &[time]);
    }
    tick_at(script, &[5]);
    script.call(SCORER_NEW, &[TIME_LIMIT]);
    // a new scorer may be older than the last one
    script.call(SCORER_NEW, &[3]);
    tick_at(script, &[4]);
}

/// A scorer, played along so that its times are known.
struct Run {
    scorer: Scorer,
    times: Times,
    /// The usual time between two ticks.
    step: u64,
    weather: Weather,
    weather_lasts: bool,
}

/// How often what comes between two ticks, in parts of 100, and how much of it at most.
struct Weather {
    eagain: u64,
    rtt: u64,
    nacks: u64,
    losses: u64,
    burst: u64,
}

impl Weather {
    fn calm() -> Self {
        Self {
            eagain: 0,
            rtt: 0,
            nacks: 0,
            losses: 0,
            burst: 1,
        }
    }

    fn new(random: &mut Random) -> Self {
        if random.percent(40) {
            return Self::calm();
        }
        Self {
            eagain: random.pick(&[0, 0, 5, 20, 100]),
            rtt: random.pick(&[0, 5, 20, 100]),
            nacks: random.pick(&[0, 10, 40]),
            losses: random.pick(&[0, 0, 10, 80]),
            burst: random.pick(&[1, 2, 4, 12]),
        }
    }
}

pub fn episode(script: &mut Script, random: &mut Random, length: u64) {
    if length > 1_000 && random.percent(3) {
        return long_congestion(script, random);
    }
    let end = script.len() + length as usize;
    let weather_lasts = random.percent(20);
    let mut run = make(script, random, weather_lasts);
    while script.len() < end {
        if !weather_lasts && random.below(150) == 0 {
            run = make(script, random, weather_lasts);
        }
        run.round(script, random);
    }
}

/// So many ticks in one cooldown that the congested time is above 2^64 nanoseconds.
fn long_congestion(script: &mut Script, random: &mut Random) {
    new(script, &[(TICK, LARGEST), (COOLDOWN, LARGEST)]);
    let step = random.of_bits(30);
    script.call(SCORER_EAGAIN, &[]);
    for tick in 0..4_300 {
        script.call(SCORER_TICK, &[step * tick]);
    }
}

/// A new scorer with settings within the domain; in some runs all stays calm after the start.
fn make(script: &mut Script, random: &mut Random, weather_lasts: bool) -> Run {
    let mut settings = Settings::new(script);
    vary_scoring(&mut settings, script, random);
    let times = Times::new(random);
    script.call(SCORER_NEW, &[times.now()]);
    let mut run = Run {
        scorer: Scorer::new(settings.config(), times.now()),
        times,
        step: random.pick(&[1, 10, 100, 100, 250, 1_000]) * MILLISECOND,
        weather: Weather::new(random),
        weather_lasts,
    };
    if weather_lasts && random.percent(50) {
        run.round(script, random);
        run.weather = Weather::calm();
    }
    run
}

impl Run {
    /// Signals and a tick, mostly.
    fn round(&mut self, script: &mut Script, random: &mut Random) {
        match random.below(300) {
            0 | 1 => refused_new(script, random, SCORER_NEW, self.times.now()),
            2 => self.at_call_limit(script, random),
            _ => {
                if !self.weather_lasts && random.percent(10) {
                    self.weather = Weather::new(random);
                }
                self.signals(script, random);
                self.tick(script, random);
            }
        }
    }

    /// The call count comes near its limit, is used up, and is set back.
    fn at_call_limit(&mut self, script: &mut Script, random: &mut Random) {
        let left = random.below(4);
        self.set_calls(script, CALL_LIMIT - left);
        for _ in 0..left + random.between(1, 4) {
            if random.percent(50) {
                self.tick(script, random);
            } else {
                let signal = random.between(SCORER_EAGAIN, SCORER_LOSS);
                self.signal(script, signal);
            }
        }
        self.set_calls(script, random.of_bits(39));
    }

    fn set_calls(&mut self, script: &mut Script, calls: u64) {
        script.call(SCORER_CALLS, &[calls]);
        self.scorer.set_calls(calls);
    }

    fn signals(&mut self, script: &mut Script, random: &mut Random) {
        let weather = [
            (SCORER_EAGAIN, self.weather.eagain),
            (SCORER_RTT, self.weather.rtt),
            (SCORER_NACK, self.weather.nacks),
            (SCORER_LOSS, self.weather.losses),
        ];
        for (signal, chance) in weather {
            if random.percent(chance) {
                for _ in 0..random.between(1, self.weather.burst) {
                    self.signal(script, signal);
                }
            }
        }
    }

    fn signal(&mut self, script: &mut Script, operation: u64) {
        script.call(operation, &[]);
        self.scorer.signal(operation);
    }

    /// About one tick in 30 is refused.
    fn tick(&mut self, script: &mut Script, random: &mut Random) {
        let time = if random.percent(3) {
            self.times.refused(random)
        } else {
            self.next_time(random)
        };
        script.call(SCORER_TICK, &[time]);
        self.scorer.tick(time);
    }

    /// Some times are those at which cooldown or stable window end, or one nanosecond beside it.
    fn next_time(&mut self, random: &mut Random) -> u64 {
        let step = match random.below(20) {
            0 | 1 => 0,
            2 => 1,
            3..=7 => step_beside(next_end(self.scorer.scorer()), &self.times, random),
            8 => return self.times.next(random),
            _ => self.step,
        };
        self.times.advance(step)
    }
}

/// The end of the stable window, or of the cooldown while congested.
pub fn next_end(scorer: &CongestionScorer) -> u64 {
    let end = match scorer.stable_since() {
        Some(since) => Some(since + scorer.config().stable_window),
        None => scorer.cooldown_until(),
    };
    end.map_or(0, |end| end.nanoseconds())
}

/// From now to a time or one nanosecond beside it; hardly anything where it is past.
pub fn step_beside(time: u64, times: &Times, random: &mut Random) -> u64 {
    let step = time.saturating_sub(times.now()) + random.below(3);
    step.saturating_sub(1)
}
