//! Conversions and float operations.

use crate::generate::values::*;
use crate::operation::*;
use crate::random::Random;
use crate::script::Script;

const FNV_PRIME: u64 = 0x100_0000_01b3;

pub fn boundary(script: &mut Script) {
    each(script, F32_OF_U32, &U32S);
    each(script, F32_OF_U32, &[1 << 32, (1 << 32) + 16_777_219]);
    each(script, F64_OF_U64, &U64S);
    each(script, U32_OF_F32, &f32s());
    each(
        script,
        U32_OF_F32,
        &[(1 << 32) + u64::from(2.5f32.to_bits())],
    );
    each(script, U64_OF_F64, &f64s());
    maxima(script);
    clamps(script);
    each(script, ABS_F32, &f32s()[..6]);
    each(script, ABS_F32, &f32s()[25..]);
    each(script, AS_SECS_F64, &NANOSECONDS);
    each(script, FROM_SECS_F64, &seconds());
    products(script);
    // A number is no operation because its low half is one.
    for unknown in [0, 1, (1 << 32) + F32_OF_U32, u64::MAX] {
        script.call(unknown, &[1, 2, 3, 4, 5]);
    }
}

fn each(script: &mut Script, operation: u64, arguments: &[u64]) {
    for &argument in arguments {
        script.call(operation, &[argument]);
    }
}

fn maxima(script: &mut Script) {
    let nan = u64::from(NAN);
    let pairs = [
        (bits(0.0), bits(-0.0)),
        (bits(-0.0), bits(0.0)),
        (bits(1.0), bits(2.0)),
        (bits(2.0), bits(1.0)),
        (bits(-1.0), bits(-2.0)),
        (bits(1.0), bits(1.0)),
        (nan, bits(1.0)),
        (bits(1.0), nan),
        (u64::from(NEGATIVE_NAN), bits(-0.0)),
        (nan, u64::from(SIGNALLING_NAN)),
        (bits(f32::INFINITY), bits(f32::MAX)),
        (bits(f32::NEG_INFINITY), bits(f32::MIN)),
        (nan, bits(f32::NEG_INFINITY)),
        (bits(f32::from_bits(1)), bits(0.0)),
        (bits(-f32::from_bits(1)), bits(-0.0)),
        (bits(1.0), bits(1f32.next_up())),
    ];
    for (a, b) in pairs {
        script.call(MAX_F32, &[a, b]);
    }
}

fn clamps(script: &mut Script) {
    let held = [
        0.0,
        -0.0,
        -1.0,
        50.0,
        100.0,
        100f32.next_up(),
        100f32.next_down(),
        f32::INFINITY,
        f32::NEG_INFINITY,
        f32::NAN,
        -f32::from_bits(1),
    ];
    for x in held {
        script.call(CLAMP_F32, &[bits(x), bits(0.0), bits(100.0)]);
    }
    let others = [
        (1.0, 1.0, 1.0),
        (2.0, 1.0, 1.0),
        (0.0, -0.0, 0.0),
        (-0.0, 0.0, 0.0),
        (-1.0, -0.0, 0.0),
        (1.0, -0.0, -0.0),
        (1.0, f32::NEG_INFINITY, f32::INFINITY),
        (f32::NAN, f32::NEG_INFINITY, f32::INFINITY),
        (1.0, f32::INFINITY, f32::INFINITY),
    ];
    for (x, low, high) in others {
        script.call(CLAMP_F32, &[bits(x), bits(low), bits(high)]);
    }
}

/// Where seconds and their fraction are rounded apart.
const NANOSECONDS: [u64; 20] = [
    0,
    1,
    2,
    300_000,
    999_999_999,
    1_000_000_000,
    1_000_000_001,
    1_069_600_000,
    1_999_999_999,
    4_294_967_295_999_999_999,
    4_294_967_296_000_000_000,
    (1 << 53) - 1,
    (1 << 53) + 1,
    TIME_LIMIT - 1,
    TIME_LIMIT,
    TIME_LIMIT + 1,
    1 << 63,
    18_446_744_072_999_999_999,
    u64::MAX - 1,
    u64::MAX,
];

/// Seconds at and beside half nanoseconds, whole seconds and the ends of the range.
fn seconds() -> Vec<u64> {
    let centers = [
        0.5e-9,
        1e-9,
        1.5e-9,
        2.5e-9,
        // 976,562.5 ns and three times that: true ties
        1.0 / 1024.0,
        3.0 / 1024.0,
        0.1434,
        0.999_999_999_5,
        1.0,
        4_294_967_296.0,
    ];
    let around = centers
        .iter()
        .flat_map(|center: &f64| [center.next_down(), *center, center.next_up()]);
    let alone = [
        0.0,
        -0.0,
        f64::from_bits(1),
        -f64::from_bits(1),
        f64::MIN_POSITIVE,
        -1e-10,
        -1.0,
        5.0 / 1024.0,
        4_294_967_295.0 + 1023.0 / 1024.0,
        1_000_000_000.0,
        1.8446744073709552e10,
        f64::MAX,
        f64::INFINITY,
        f64::NEG_INFINITY,
        f64::NAN,
    ];
    around.chain(alone).map(f64::to_bits).collect()
}

fn products(script: &mut Script) {
    let pairs = [
        (0, u64::MAX),
        (1, u64::MAX),
        (u64::MAX, u64::MAX),
        (1 << 63, 2),
        (1 << 32, 1 << 32),
        ((1 << 32) - 1, (1 << 32) + 1),
        (0xcbf2_9ce4_8422_2325, FNV_PRIME),
        (FNV_PRIME, FNV_PRIME),
        (u64::MAX, FNV_PRIME),
        (6_700_417, 641),
    ];
    for (a, b) in pairs {
        script.call(WRAPPING_MUL, &[a, b]);
    }
}

pub fn episode(script: &mut Script, random: &mut Random, length: u64) {
    for _ in 0..length {
        call(script, random);
    }
}

fn call(script: &mut Script, random: &mut Random) {
    let operation = random.between(F32_OF_U32, WRAPPING_MUL);
    let arguments = match operation {
        F32_OF_U32 => {
            let value = u32_value(random);
            [widened(random, value, 32), 0, 0]
        }
        F64_OF_U64 | AS_SECS_F64 => [u64_value(random), 0, 0],
        U32_OF_F32 | ABS_F32 => {
            let value = f32_value(random);
            [widened(random, value, 32), 0, 0]
        }
        U64_OF_F64 => [f64_value(random), 0, 0],
        MAX_F32 => pair(random),
        CLAMP_F32 => clamp_arguments(random),
        FROM_SECS_F64 => [seconds_value(random), 0, 0],
        _ => [u64_value(random), factor(random), 0],
    };
    script.call(operation, &arguments);
}

fn factor(random: &mut Random) -> u64 {
    if random.percent(30) {
        FNV_PRIME
    } else {
        u64_value(random)
    }
}

/// Two f32, some equal up to the sign.
fn pair(random: &mut Random) -> [u64; 3] {
    let a = f32_value(random);
    let b = match random.below(5) {
        0 => a,
        1 => a ^ 1 << 31,
        2 => u64::from(random.near(a) as u32),
        _ => f32_value(random),
    };
    [a, b, 0]
}

/// A float and bounds in order, neither of them NaN.
fn clamp_arguments(random: &mut Random) -> [u64; 3] {
    let x = f32_value(random);
    if random.percent(25) {
        return [x, bits(0.0), bits(100.0)];
    }
    let a = bound(random);
    let b = bound(random);
    let (low, high) = if a <= b { (a, b) } else { (b, a) };
    let x = match random.below(4) {
        0 => u64::from(random.near(bits(low)) as u32),
        1 => u64::from(random.near(bits(high)) as u32),
        _ => x,
    };
    [x, bits(low), bits(high)]
}

fn bound(random: &mut Random) -> f32 {
    loop {
        let bound = f32::from_bits(f32_value(random) as u32);
        if !bound.is_nan() {
            return bound;
        }
    }
}

/// The bits of some seconds: many at or beside a tie between two nanoseconds.
fn seconds_value(random: &mut Random) -> u64 {
    let seconds = match random.below(10) {
        // an odd number of 1024ths ends in half a nanosecond
        0 | 1 => (random.of_bits(41) * 2 + 1) as f64 / 1024.0,
        2 => (random.of_bits(62) as f64 + 0.5) * 1e-9,
        3 => random.of_bits(62) as f64 * 1e-9,
        4 => random.between(1, RATE_LIMIT) as f64 / random.between(1, RATE_LIMIT) as f64,
        5 => random.between(1, RATE_LIMIT) as f64 / random.between(1, 20_000) as f64,
        6 => 4_294_967_296.0,
        7 => random.of_bits(32) as f64 + 0.999_999_999_5,
        8 => random.unit() * 2f64.powi(random.below(74) as i32 - 40),
        _ => return f64_value(random),
    };
    random.near(seconds.to_bits())
}
