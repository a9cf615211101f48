//! The C functions themselves, on slices.

use crate::Refusal;

const RESULT_BYTES: usize = 8;

mod c {
    extern "C" {
        pub fn bowunte_key_hash(
            data: *const u8,
            data_len: usize,
            out: *mut u8,
            out_len: usize,
        ) -> u32;

        pub fn bowunte_rate_decrease(
            rate: u32,
            factor: f32,
            least_rate: u32,
            out: *mut u8,
            out_len: usize,
        ) -> u32;

        pub fn bowunte_tape_run(
            tape: *const u8,
            tape_len: usize,
            lines: *mut u8,
            lines_len: usize,
            out: *mut u8,
            out_len: usize,
        ) -> u32;
    }
}

pub fn key_hash(data: &[u8]) -> Result<u64, Refusal> {
    result(|out, out_len| {
        // SAFETY: both buffers have the bytes that their lengths say, and `out` is a buffer of its own.
        unsafe { c::bowunte_key_hash(data.as_ptr(), data.len(), out, out_len) }
    })
}

pub fn rate_decrease(rate: u32, factor: f32, least_rate: u32) -> Result<u64, Refusal> {
    result(|out, out_len| {
        // SAFETY: `out` has `out_len` bytes.
        unsafe { c::bowunte_rate_decrease(rate, factor, least_rate, out, out_len) }
    })
}

pub fn tape_run(tape: &[u8], lines: &mut [u8]) -> Result<u64, Refusal> {
    let (lines, lines_len) = (lines.as_mut_ptr(), lines.len());
    result(|out, out_len| {
        // SAFETY: the three buffers have the bytes that their lengths say. `lines` is borrowed for itself alone, and
        // `out` is a buffer of its own, so that none overlaps another.
        unsafe { c::bowunte_tape_run(tape.as_ptr(), tape.len(), lines, lines_len, out, out_len) }
    })
}

/// The result of a function that is given a buffer for it.
fn result(call: impl FnOnce(*mut u8, usize) -> u32) -> Result<u64, Refusal> {
    let mut out = [0; RESULT_BYTES];
    match call(out.as_mut_ptr(), out.len()) {
        0 => Ok(u64::from_le_bytes(out)),
        number => Err(Refusal::of(number)),
    }
}
