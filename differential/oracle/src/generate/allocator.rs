//! The allocator: no writer up to one too many, weights whose sum hangs on their order, replaced ids and refusals.

use crate::generate::config::*;
use crate::generate::settings::*;
use crate::generate::times::at_call_limit;
use crate::generate::values::*;
use crate::operation::*;
use crate::random::Random;
use crate::script::Script;

const P0: u64 = 0;
const P1: u64 = 1;
const P2: u64 = 2;

const RATES: [u64; 14] = [
    0,
    1,
    999,
    1_000,
    1_001,
    10_000,
    49_999,
    63_999,
    16_777_217,
    17_975_591,
    50_000_000,
    100_000_000,
    RATE_LIMIT - 1,
    RATE_LIMIT,
];
/// Weights that are accepted; those below 0.1 count as 0.1.
fn weights() -> [u64; 15] {
    [
        bits(0.1),
        bits(0.1f32.next_down()),
        bits(0.1f32.next_up()),
        bits(0.0),
        bits(-0.0),
        bits(f32::from_bits(1)),
        bits(-f32::from_bits(1)),
        bits(-1.0),
        bits(f32::MIN),
        bits(1.0),
        bits(0.3),
        bits(1.0 / 3.0),
        bits(16.7),
        bits(1_000_000f32.next_down()),
        bits(1_000_000.0),
    ]
}

/// Weights that are refused.
fn refused_weights() -> [u64; 7] {
    [
        bits(1_000_000f32.next_up()),
        bits(f32::MAX),
        bits(f32::INFINITY),
        bits(f32::NEG_INFINITY),
        u64::from(NAN),
        u64::from(NEGATIVE_NAN),
        u64::from(SIGNALLING_NAN),
    ]
}

pub fn boundary(script: &mut Script) {
    before_any_new(script);
    three_of_p1(script);
    shares(script);
    kept_for_p0(script);
    light_and_heavy(script);
    order_of_the_sum(script);
    replaced(script);
    unregistered(script);
    full(script);
    order_of_numbers(script);
    at_limit(script);
    news(script);
}

/// The default settings with some changes, and a new allocator.
fn new(script: &mut Script, changes: &[(u64, u64)]) {
    settings_become(script, changes);
    script.call(ALLOCATOR_NEW, &[]);
}

fn reallocate(script: &mut Script, rates: &[u64]) {
    for &rate in rates {
        script.call(ALLOCATOR_REALLOCATE, &[rate]);
    }
}

fn show(script: &mut Script, places: &[u64]) {
    for &place in places {
        script.call(ALLOCATOR_SHOW, &[place]);
    }
}

/// The default settings, and no writers.
fn before_any_new(script: &mut Script) {
    show(script, &[0]);
    reallocate(script, &[1_000_000]);
    script.call(ALLOCATOR_UNREGISTER, &[0]);
    script.call(ALLOCATOR_REGISTER, &[0, P1]);
    reallocate(script, &[1_000_000, 2_000_000]);
    show(script, &[0, 1, 63, 64, u64::MAX]);
}

/// Rate 17,975,591: of 12,582,914 for P1 each of three writers gets 4,194,305, one more than there is.
pub fn three_of_p1(script: &mut Script) {
    new(script, &[]);
    for id in [1, 2, 3] {
        script.call(ALLOCATOR_REGISTER, &[id, P1]);
    }
    reallocate(script, &[17_975_591]);
    show(script, &[0, 1, 2]);
}

/// P0, P1 and P2 alone and together; at 50,000,000 P0 gets 10,000,000 and P1 28,000,000.
fn shares(script: &mut Script) {
    new(script, &[]);
    for (id, class) in [(3, P1), (9, P0), (1, P2), (4, P0), (2, P2), (0, P1)] {
        script.call(ALLOCATOR_REGISTER, &[id, class]);
        reallocate(script, &[50_000_000]);
    }
    reallocate(script, &RATES);
    show(script, &[0, 1, 2, 3, 4, 5, 6]);
}

/// The share and the least of P0 at their ends; a least above the rate leaves the others nothing.
fn kept_for_p0(script: &mut Script) {
    let ends = [
        (bits(0.0), 0),
        (bits(-0.0), 1),
        (bits(1.0), 0),
        (1, 10_000),
        (bits(0.2), RATE_LIMIT),
        (bits(1f32.next_down()), 999),
    ];
    for (share, least) in ends {
        new(script, &[(P0_SHARE, share), (P0_MIN, least)]);
        for (id, class) in [(1, P0), (2, P1), (3, P2), (4, P0)] {
            script.call(ALLOCATOR_REGISTER, &[id, class]);
        }
        reallocate(script, &[0, 1_000, 16_777_219, RATE_LIMIT]);
    }
}

fn light_and_heavy(script: &mut Script) {
    new(script, &[]);
    for (id, weight) in weights().into_iter().enumerate() {
        script.call(ALLOCATOR_REGISTER_WEIGHTED, &[id as u64, P1, weight]);
        reallocate(script, &[100_000_000]);
    }
    for weight in refused_weights() {
        script.call(ALLOCATOR_REGISTER_WEIGHTED, &[1, P1, weight]);
    }
    // a weight is taken modulo 2^32, a class modulo 3
    script.call(
        ALLOCATOR_REGISTER_WEIGHTED,
        &[2, u64::MAX, (7 << 32) | bits(2.5)],
    );
    script.call(ALLOCATOR_REGISTER, &[u64::MAX, 5]);
    reallocate(script, &[(1 << 32) + 70_000_000]);
    show(script, &[0, 1, 13, 14, 15]);
}

/// Summed by id, whatever the order they came in; by size or as they came the sum is another.
fn order_of_the_sum(script: &mut Script) {
    let heavy = bits(1_000_000.0);
    let light = bits(0.1);
    let rows = [
        [(9, light), (8, light), (7, heavy), (6, light)],
        [(1, light), (2, light), (3, light), (4, heavy)],
        [(4, light), (3, light), (2, light), (1, heavy)],
    ];
    for class in [P0, P1, P2] {
        for row in rows {
            new(script, &[]);
            for (id, weight) in row {
                script.call(ALLOCATOR_REGISTER_WEIGHTED, &[id, class, weight]);
            }
            reallocate(script, &[RATE_LIMIT]);
        }
    }
    new(script, &[]);
    for (id, tenths) in [3, 11, 7, 1, 13, 2, 9].into_iter().enumerate() {
        let weight = bits(tenths as f32 / 10.0);
        script.call(ALLOCATOR_REGISTER_WEIGHTED, &[50 - id as u64, P2, weight]);
    }
    reallocate(script, &[999_999_937, 16_777_213]);
}

/// A known id loses weight and budget, and may change its class.
fn replaced(script: &mut Script) {
    new(script, &[]);
    for (id, class) in [(5, P1), (6, P1), (7, P2)] {
        script.call(ALLOCATOR_REGISTER_WEIGHTED, &[id, class, bits(3.0)]);
    }
    reallocate(script, &[10_000_000]);
    for (id, class) in [(5, P1), (7, P0), (6, P2), (7, P0)] {
        script.call(ALLOCATOR_REGISTER, &[id, class]);
        show(script, &[0, 1, 2]);
        reallocate(script, &[10_000_000]);
    }
}

/// Unknown ones, then the first, the last and one in between.
fn unregistered(script: &mut Script) {
    new(script, &[]);
    script.call(ALLOCATOR_UNREGISTER, &[1]);
    for id in [10, 20, 30, 40, u64::MAX] {
        script.call(ALLOCATOR_REGISTER, &[id, P1]);
    }
    reallocate(script, &[5_000_000]);
    for id in [0, 15, 10, 10, u64::MAX, 30, 20, 40, 40] {
        script.call(ALLOCATOR_UNREGISTER, &[id]);
        reallocate(script, &[6_000_000]);
    }
}

/// 64 writers; the next is 14, known ones are replaced.
fn full(script: &mut Script) {
    new(script, &[]);
    for number in 0..64u64 {
        let id = number.wrapping_mul(0x9e37_79b9_7f4a_7c15);
        let weight = bits(1.0 + (number % 7) as f32 / 10.0);
        script.call(ALLOCATOR_REGISTER_WEIGHTED, &[id, number, weight]);
    }
    reallocate(script, &[0, 63_999, 100_000_001, RATE_LIMIT]);
    script.call(ALLOCATOR_REGISTER, &[1, P0]);
    script.call(ALLOCATOR_REGISTER_WEIGHTED, &[1, P0, bits(1.0)]);
    script.call(ALLOCATOR_REGISTER, &[0, P2]);
    script.call(ALLOCATOR_REGISTER_WEIGHTED, &[0, P0, bits(2.0)]);
    script.call(ALLOCATOR_UNREGISTER, &[1]);
    script.call(ALLOCATOR_UNREGISTER, &[0]);
    script.call(ALLOCATOR_REGISTER, &[1, P1]);
    script.call(ALLOCATOR_REGISTER, &[2, P1]);
    reallocate(script, &[RATE_LIMIT]);
    show(script, &[0, 21, 42, 62, 63]);
}

/// 4, 17, 14; 6, 17. The table is full from before.
fn order_of_numbers(script: &mut Script) {
    let calls = |script: &mut Script| {
        for weight in [u64::from(NAN), bits(1.0)] {
            script.call(ALLOCATOR_REGISTER_WEIGHTED, &[2, P0, weight]);
        }
        script.call(ALLOCATOR_REGISTER, &[2, P0]);
        reallocate(script, &REFUSED_RATES);
    };
    calls(script);
    script.call(ALLOCATOR_CALLS, &[CALL_LIMIT]);
    calls(script);
    reallocate(script, &[1]);
    script.call(ALLOCATOR_UNREGISTER, &[1]);
    script.call(ALLOCATOR_UNREGISTER, &[2]);
    script.call(ALLOCATOR_REGISTER, &[1, P0]);
    show(script, &[21]);
}

fn at_limit(script: &mut Script) {
    for calls in [CALL_LIMIT - 2, CALL_LIMIT + 1, u64::MAX, CALL_LIMIT - 1] {
        script.call(ALLOCATOR_CALLS, &[calls]);
        // an unknown id is a call too
        script.call(ALLOCATOR_UNREGISTER, &[2]);
        script.call(ALLOCATOR_REGISTER, &[1, P2]);
        reallocate(script, &[77_777]);
    }
    script.call(ALLOCATOR_CALLS, &[0]);
    reallocate(script, &[77_777]);
}

/// 1, 2; after a refused one the earlier goes on.
fn news(script: &mut Script) {
    new(script, &[]);
    script.call(ALLOCATOR_REGISTER, &[1, P1]);
    for change in REFUSED_CHANGES {
        new(script, &[change]);
    }
    new(script, &[(QUEUE_P1, 513), (DECREASE, 0)]);
    reallocate(script, &[1_000_000]);
    new(script, &[]);
    reallocate(script, &[1_000_000]);
}

/// What an allocator is used for, in parts of 100.
struct Run {
    ids: Vec<u64>,
    class: Option<u64>,
    weights: Weights,
    registers: u64,
    unregisters: u64,
}

pub fn episode(script: &mut Script, random: &mut Random, length: u64) {
    let end = script.len() + length as usize;
    let mut run = make(script, random, length);
    while script.len() < end {
        if random.below(400) == 0 {
            run = make(script, random, length);
        }
        run.call(script, random);
    }
    if random.percent(20) {
        at_call_limit(script, random, ALLOCATOR_CALLS, |script, random| {
            run.usual_call(script, random)
        });
    }
}

/// A new allocator with settings within the domain, and mostly some writers; many in long episodes only.
fn make(script: &mut Script, random: &mut Random, length: u64) -> Run {
    let mut settings = Settings::new(script);
    if random.percent(70) {
        vary_shares(&mut settings, script, random);
    }
    script.call(ALLOCATOR_NEW, &[]);
    let count = match random.below(4) {
        0 => random.between(1, 4),
        1 if length > 100 => random.between(60, 64),
        2 if length > 100 => random.between(65, 80),
        _ => random.between(1, 12),
    };
    let run = Run {
        ids: ids(random, count),
        class: random.pick(&[None, None, None, Some(P0), Some(P1), Some(P2)]),
        weights: Weights::new(random),
        registers: random.pick(&[5, 20, 50]),
        unregisters: random.pick(&[0, 2, 10, 40]),
    };
    if random.percent(75) {
        for &id in &run.ids {
            run.register(script, random, id);
        }
    }
    run
}

/// Ids of one kind; some may be equal.
fn ids(random: &mut Random, count: u64) -> Vec<u64> {
    let kind = random.below(6);
    let id = |k: u64| match kind {
        0 => k,
        1 => count - k,
        2 => u64::MAX - k,
        3 => random.word(),
        4 => 1 << (k % 64),
        _ => random.of_bits(64),
    };
    (0..count).map(id).collect()
}

/// Weights of one kind.
enum Weights {
    None,
    Edges,
    Tenths,
    NearTenth,
    Any,
}

impl Weights {
    fn new(random: &mut Random) -> Self {
        match random.below(6) {
            0 => Self::None,
            1 => Self::Edges,
            2 | 3 => Self::Tenths,
            4 => Self::NearTenth,
            _ => Self::Any,
        }
    }

    /// The bits of a weight that is accepted; none for a register without one.
    fn next(&self, random: &mut Random) -> Option<u64> {
        match self {
            Self::None => None,
            Self::Edges => Some(random.pick(&weights())),
            Self::Tenths => Some(bits(random.between(0, 60) as f32 / 10.0)),
            Self::NearTenth => Some(random.near(bits(0.1))),
            Self::Any => Some(random.between(bits(0.01), bits(1_000_000.0))),
        }
    }
}

impl Run {
    /// About one call in 25 is refused.
    fn call(&self, script: &mut Script, random: &mut Random) {
        match random.below(200) {
            0 | 1 => self.refused_new(script, random),
            2..=4 => script.call(ALLOCATOR_REALLOCATE, &[random.pick(&REFUSED_RATES)]),
            5..=8 => self.refused_weight(script, random),
            9..=18 => {
                let place = random.below(70);
                show(script, &[widened(random, place, 6)]);
            }
            _ => self.usual_call(script, random),
        }
    }

    fn usual_call(&self, script: &mut Script, random: &mut Random) {
        let id = match random.below(15) {
            0 => random.word(),
            _ => random.pick(&self.ids),
        };
        if random.percent(self.unregisters) {
            script.call(ALLOCATOR_UNREGISTER, &[id]);
        } else if random.percent(self.registers) {
            self.register(script, random, id);
        } else {
            let rate = match random.below(4) {
                0 => random.pick(&RATES),
                1 => random.below(80_000),
                _ => rate(random),
            };
            script.call(ALLOCATOR_REALLOCATE, &[widened(random, rate, 32)]);
        }
    }

    fn register(&self, script: &mut Script, random: &mut Random, id: u64) {
        let class = self.class(random);
        match self.weights.next(random) {
            Some(weight) if random.percent(90) => {
                let weight = widened(random, weight, 32);
                script.call(ALLOCATOR_REGISTER_WEIGHTED, &[id, class, weight]);
            }
            _ => script.call(ALLOCATOR_REGISTER, &[id, class]),
        }
    }

    fn class(&self, random: &mut Random) -> u64 {
        let class = match self.class {
            Some(class) if random.percent(90) => class,
            _ => random.below(3),
        };
        let turns = if random.percent(3) {
            random.below(1 << 60)
        } else {
            0
        };
        class + 3 * turns
    }

    fn refused_weight(&self, script: &mut Script, random: &mut Random) {
        let (id, class) = (random.pick(&self.ids), self.class(random));
        let weight = random.pick(&refused_weights());
        script.call(ALLOCATOR_REGISTER_WEIGHTED, &[id, class, weight]);
    }

    /// By its settings; the allocator stays.
    fn refused_new(&self, script: &mut Script, random: &mut Random) {
        let (field, value) = random.pick(&REFUSED_SETTINGS);
        new(script, &[(field, value)]);
        script.call(CONFIG_NEW, &[]);
    }
}
