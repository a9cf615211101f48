//! Numbers and floats at and around the places where something changes.

use crate::random::Random;

pub const RATE_LIMIT: u64 = 1_000_000_000;
/// Rates beyond their range; the last has more than 32 bits, of which the script takes the low ones.
pub const REFUSED_RATES: [u64; 4] = [
    RATE_LIMIT + 1,
    1 << 31,
    u32::MAX as u64,
    (1 << 32) + RATE_LIMIT + 1,
];
pub const TIME_LIMIT: u64 = 1 << 62;
pub const CALL_LIMIT: u64 = 1 << 40;

pub const NAN: u32 = 0x7fc0_0000;
pub const NEGATIVE_NAN: u32 = 0xffc0_0001;
pub const SIGNALLING_NAN: u32 = 0x7f80_0001;
pub const NAN_F64: u64 = 0x7ff8_0000_0000_0000;
pub const NEGATIVE_NAN_F64: u64 = 0xfff8_0000_0000_0001;
pub const SIGNALLING_NAN_F64: u64 = 0x7ff0_0000_0000_0001;

/// 32-bit numbers; from 2^24 on some have no f32 of their own.
pub const U32S: [u64; 31] = [
    0,
    1,
    2,
    3,
    255,
    9_999,
    10_000,
    16_777_215,
    16_777_216,
    16_777_217,
    16_777_218,
    16_777_219,
    16_777_220,
    16_777_221,
    33_554_431,
    33_554_433,
    33_554_434,
    33_554_435,
    33_554_437,
    33_554_438,
    33_554_439,
    999_999_999,
    1_000_000_000,
    1_000_000_001,
    2_147_483_647,
    2_147_483_648,
    2_147_483_713,
    4_294_967_040,
    4_294_967_167,
    4_294_967_168,
    4_294_967_295,
];

/// 64-bit numbers; from 2^53 on some have no f64 of their own.
pub const U64S: [u64; 30] = [
    0,
    1,
    1_000_000_000,
    16_777_217,
    (1 << 32) - 1,
    1 << 32,
    (1 << 53) - 1,
    1 << 53,
    (1 << 53) + 1,
    (1 << 53) + 2,
    (1 << 53) + 3,
    (1 << 54) + 2,
    (1 << 54) + 3,
    (1 << 54) + 6,
    (1 << 62) - 1,
    1 << 62,
    (1 << 62) + 1,
    (1 << 63) - 513,
    (1 << 63) - 512,
    (1 << 63) - 511,
    (1 << 63) - 1,
    1 << 63,
    (1 << 63) + 1024,
    (1 << 63) + 1025,
    (1 << 63) + 3072,
    u64::MAX - 2047,
    u64::MAX - 1024,
    u64::MAX - 1023,
    u64::MAX - 1022,
    u64::MAX,
];

/// The bits of an f32 as an argument.
pub fn bits(float: f32) -> u64 {
    u64::from(float.to_bits())
}

/// f32 by their bits: zeros, subnormals, halves, the ends of u32, infinities, NaN.
pub fn f32s() -> Vec<u64> {
    let floats = [
        0.0,
        -0.0,
        f32::from_bits(1),
        -f32::from_bits(1),
        f32::MIN_POSITIVE.next_down(),
        f32::MIN_POSITIVE,
        0.5,
        1f32.next_down(),
        1.0,
        1f32.next_up(),
        1.5,
        2.5,
        -0.5,
        -1.0,
        -1.5,
        100.0,
        1_000_000.0,
        8_388_607.5,
        16_777_215.0,
        16_777_216.0,
        1_000_000_000.0,
        2_147_483_648.0,
        4_294_967_296f32.next_down(),
        4_294_967_296.0,
        4_294_967_296f32.next_up(),
        f32::MAX,
        f32::MIN,
        f32::INFINITY,
        f32::NEG_INFINITY,
    ];
    let bits = floats.iter().map(|float: &f32| float.to_bits());
    bits.chain([NAN, NEGATIVE_NAN, SIGNALLING_NAN])
        .map(u64::from)
        .collect()
}

/// f64 by their bits: zeros, subnormals, halves, the ends of u32 and u64, infinities, NaN.
pub fn f64s() -> Vec<u64> {
    let floats = [
        0.0,
        -0.0,
        f64::from_bits(1),
        -f64::from_bits(1),
        f64::MIN_POSITIVE.next_down(),
        f64::MIN_POSITIVE,
        0.5,
        1f64.next_down(),
        1.0,
        1f64.next_up(),
        2.5,
        -1.0,
        -1.5,
        1_336.999_999_999_999_9,
        4_294_967_296f64.next_down(),
        4_294_967_296.0,
        4_503_599_627_370_495.5,
        9_007_199_254_740_991.0,
        9_007_199_254_740_992.0,
        9_223_372_036_854_775_808f64.next_down(),
        9_223_372_036_854_775_808.0,
        18_446_744_073_709_551_616f64.next_down(),
        18_446_744_073_709_551_616.0,
        18_446_744_073_709_551_616f64.next_up(),
        f64::MAX,
        f64::MIN,
        f64::INFINITY,
        f64::NEG_INFINITY,
    ];
    let bits = floats.iter().map(|float: &f64| float.to_bits());
    bits.chain([NAN_F64, NEGATIVE_NAN_F64, SIGNALLING_NAN_F64])
        .collect()
}

/// Some u32, near ties between two f32 too.
pub fn u32_value(random: &mut Random) -> u64 {
    match random.below(4) {
        0 => random.pick(&U32S),
        1 => random.of_bits(32),
        2 => tie(random, 24, 8),
        _ => random.word() >> 32,
    }
}

/// Some u64, near ties between two f64 too.
pub fn u64_value(random: &mut Random) -> u64 {
    match random.below(4) {
        0 => random.pick(&U64S),
        1 => random.of_bits(64),
        2 => tie(random, 53, 11),
        _ => random.word(),
    }
}

/// A number of more than `precision` bits, halfway between two floats or one beside it.
fn tie(random: &mut Random, precision: u64, most: u64) -> u64 {
    let cut = random.between(1, most);
    let kept = (1 << (precision - 1)) + random.below(1 << (precision - 1));
    let halfway = (kept << cut) + (1 << (cut - 1));
    halfway + random.below(3) - 1
}

/// The bits of some f32.
pub fn f32_value(random: &mut Random) -> u64 {
    match random.below(6) {
        0 => random.pick(&f32s()),
        1 => bits(random.below(1000) as f32),
        2 => {
            let whole = random.of_bits(33) as f32;
            random.near(bits(whole))
        }
        3 => bits(random.of_bits(25) as f32 * 0.5) | random.below(2) << 31,
        4 => random.of_bits(23) | random.below(2) << 31,
        _ => random.word() >> 32,
    }
}

/// The bits of some f64.
pub fn f64_value(random: &mut Random) -> u64 {
    match random.below(6) {
        0 => random.pick(&f64s()),
        1 => (random.below(1000) as f64).to_bits(),
        2 => {
            let whole = random.of_bits(64) as f64;
            random.near(whole.to_bits())
        }
        3 => (random.of_bits(54) as f64 * 0.5).to_bits() | random.below(2) << 63,
        4 => random.of_bits(52) | random.below(2) << 63,
        _ => random.word(),
    }
}

/// A value that its place holds in `bits` bits, now and then with more above them.
pub fn widened(random: &mut Random, value: u64, bits: u32) -> u64 {
    if random.percent(3) {
        value | random.word() << bits
    } else {
        value
    }
}
