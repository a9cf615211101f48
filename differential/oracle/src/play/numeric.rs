//! Conversions and float operations: the language's and std's own.

use std::time::Duration;

use crate::line::Lines;
use crate::operation::*;
use crate::script::Record;

pub fn play(record: Record, lines: &mut Lines) {
    let [a, b, c, ..] = record.arguments;
    match record.operation {
        F32_OF_U32 => lines.f32(a as u32 as f32),
        F64_OF_U64 => lines.f64(a as f64),
        U32_OF_F32 => lines.number(f32_of(a) as u32),
        U64_OF_F64 => lines.number(f64::from_bits(a) as u64),
        MAX_F32 => lines.f32(max(f32_of(a), f32_of(b))),
        CLAMP_F32 => lines.f32(clamp(f32_of(a), f32_of(b), f32_of(c))),
        ABS_F32 => lines.f32(f32_of(a).abs()),
        AS_SECS_F64 => lines.f64(Duration::from_nanos(a).as_secs_f64()),
        FROM_SECS_F64 => lines.number(from_secs(f64::from_bits(a))),
        WRAPPING_MUL => lines.number(a.wrapping_mul(b)),
        _ => {}
    }
}

/// The float whose bits are the low half of a word.
pub fn f32_of(word: u64) -> f32 {
    f32::from_bits(word as u32)
}

/// `f32::max`, with the first of two equal operands: Rust leaves open which zero comes.
fn max(a: f32, b: f32) -> f32 {
    if a == b {
        a
    } else {
        a.max(b)
    }
}

/// `f32::clamp`, which panics where not `low <= high`. A zero is the operand that the comparisons choose: Rust leaves
/// open which comes.
fn clamp(x: f32, low: f32, high: f32) -> f32 {
    let chosen = if x < low {
        low
    } else if x > high {
        high
    } else {
        x
    };
    if low <= high && chosen != 0.0 {
        x.clamp(low, high)
    } else {
        chosen
    }
}

/// `Duration::from_secs_f64` in nanoseconds. Where it panics: 0 for a negative number or NaN, and the largest u64 from
/// 2^32 seconds on, where the port stops.
fn from_secs(seconds: f64) -> u64 {
    if seconds >= 4_294_967_296.0 {
        u64::MAX
    } else if seconds > 0.0 {
        Duration::from_secs_f64(seconds).as_nanos() as u64
    } else {
        0
    }
}
