//! The two sides that an input is run on. Each gives a checksum of its results.

use std::fmt::Write;
use std::hint::black_box;

use crate::congestion::rate_controller::RateController;
use crate::congestion::scorer::CongestionAction;
use crate::congestion::writer_pacer::SendAction;
use crate::measure::mix;
use crate::play::coalescing::hash_bytes;
use crate::refusal;
use crate::tape::item::{decode, Item};
use crate::tape::run::{Fields, Reply, Runner};

use super::list::{Decrease, Input};

/// The bytes of a C function's result.
const RESULT_BYTES: usize = 8;

extern "C" {
    fn bowunte_key_hash(data: *const u8, data_len: usize, out: *mut u8, out_len: usize) -> u32;
    fn bowunte_rate_decrease(rate: u32, factor: f32, least_rate: u32, out: *mut u8, out_len: usize) -> u32;
    fn bowunte_tape_run(
        tape: *const u8,
        tape_len: usize,
        lines: *mut u8,
        lines_len: usize,
        out: *mut u8,
        out_len: usize,
    ) -> u32;
}

/// Panics where a result of the library is not the oracle's: the lines byte for byte, each hash and each rate.
pub fn assert_agreed(library: &mut Library, oracle: &mut Oracle, input: &Input) {
    match input {
        Input::Tape { tape, .. } => {
            let length = library.play(tape);
            oracle.play(tape);
            assert!(library.lines[..length] == *oracle.text.as_bytes(), "the lines of a tape");
        }
        Input::Key { bytes, .. } => assert_eq!(key_hash(bytes), hash_bytes(bytes), "a key hash"),
        Input::Decreases(decreases) => {
            for decrease in decreases {
                assert_eq!(decreased(decrease), u64::from(decrease_of_rust(decrease)), "a rate after a decrease");
            }
        }
        Input::Called(input) => {
            assert_agreed(library, oracle, input);
            assert_eq!(library.run(input), run_called(input), "the Rust behind a C function");
        }
    }
}

/// The C functions, and the buffer that they are lent for lines.
#[derive(Default)]
pub struct Library {
    lines: Vec<u8>,
}

impl Library {
    pub fn run(&mut self, input: &Input) -> u64 {
        match input {
            Input::Tape { tape, times, .. } => again(*times, || self.play(black_box(tape)) as u64),
            Input::Key { bytes, times } => again(*times, || key_hash(black_box(bytes))),
            Input::Decreases(decreases) => decreases.iter().fold(0, |sum, decrease| mix(sum, decreased(decrease))),
            Input::Called(input) => self.run(input),
        }
    }

    /// How long the lines are. The buffer grows to the longest tape's need, and is not cleared.
    fn play(&mut self, tape: &[u8]) -> usize {
        let room = 24 + 192 * tape.len().div_ceil(4);
        if self.lines.len() < room {
            self.lines.resize(room, 0);
        }
        let lines = &mut self.lines;
        // Each slice goes as its start and its length.
        let length = result(|out, room| unsafe {
            bowunte_tape_run(tape.as_ptr(), tape.len(), lines.as_mut_ptr(), lines.len(), out, room)
        });
        length as usize
    }
}

fn key_hash(bytes: &[u8]) -> u64 {
    // The slice goes as its start and its length.
    result(|out, room| unsafe { bowunte_key_hash(bytes.as_ptr(), bytes.len(), out, room) })
}

fn decreased(decrease: &Decrease) -> u64 {
    let Decrease { rate, factor, least } = *decrease;
    // `out` is as long as is said.
    result(|out, room| unsafe { bowunte_rate_decrease(rate, factor, least, out, room) })
}

/// The result that a function writes to the 8 bytes it is lent; every input here is accepted.
fn result(call: impl FnOnce(*mut u8, usize) -> u32) -> u64 {
    let mut out = [0; RESULT_BYTES];
    let answer = call(out.as_mut_ptr(), out.len());
    assert_eq!(answer, 0, "an input that is turned down");
    u64::from_le_bytes(out)
}

/// The oracle, and the text that it prints to, which keeps its room from tape to tape.
#[derive(Default)]
pub struct Oracle {
    text: String,
}

impl Oracle {
    pub fn run(&mut self, input: &Input) -> u64 {
        match input {
            Input::Tape { tape, times, .. } => again(*times, || {
                self.play(black_box(tape));
                self.text.len() as u64
            }),
            Input::Key { bytes, times } => again(*times, || hash_bytes(black_box(bytes))),
            Input::Decreases(decreases) => {
                decreases.iter().fold(0, |sum, decrease| mix(sum, decrease_of_rust(decrease).into()))
            }
            Input::Called(input) => run_called(input),
        }
    }

    fn play(&mut self, tape: &[u8]) {
        let text = &mut self.text;
        text.clear();
        text.push_str("word answer fields\n");
        let mut runner = Runner::new();
        let mut index = 0;
        while let Some((item, words)) = decode(tape, index) {
            if item == Item::End {
                return;
            }
            if let Some(reply) = runner.run(&item) {
                put_line(text, index, &reply);
            }
            index += words;
        }
        put_line(text, index, &Reply { answer: refusal::TAPE, fields: Fields::None });
    }
}

/// As the control table has it: a rate controller is made with the rate and the factor.
fn decrease_of_rust(decrease: &Decrease) -> u32 {
    let Decrease { rate, factor, least } = *decrease;
    let controller = RateController::with_params(rate, least, 1_000_000_000, 50_000, factor, factor);
    controller.preview_action(CongestionAction::DecreaseHard)
}

/// A key or decreases on the Rust behind C functions of its own.
fn run_called(input: &Input) -> u64 {
    match input {
        Input::Key { bytes, times } => again(*times, || {
            let bytes = black_box(bytes);
            result(|out, room| rust_key_hash(bytes.as_ptr(), bytes.len(), out, room))
        }),
        Input::Decreases(decreases) => decreases.iter().fold(0, |sum, decrease| {
            let Decrease { rate, factor, least } = *decrease;
            mix(sum, result(|out, room| rust_rate_decrease(rate, factor, least, out, room)))
        }),
        Input::Tape { .. } | Input::Called(_) => unreachable!("a tape is not called so"),
    }
}

/// The Rust's hash as `bowunte_key_hash` has it: an answer number, and 8 bytes in a lent slice.
#[no_mangle]
#[inline(never)]
extern "C" fn rust_key_hash(data: *const u8, data_len: usize, out: *mut u8, out_len: usize) -> u32 {
    if out_len < RESULT_BYTES {
        return refusal::BUFFER as u32;
    }
    // The caller's slice is as long as is said.
    put_result(out, hash_bytes(unsafe { std::slice::from_raw_parts(data, data_len) }));
    0
}

/// The Rust's decrease as `bowunte_rate_decrease` has it, with the same numbers.
#[no_mangle]
#[inline(never)]
extern "C" fn rust_rate_decrease(rate: u32, factor: f32, least: u32, out: *mut u8, out_len: usize) -> u32 {
    if !(factor > 0.0 && factor <= 1.0) {
        return refusal::SETTINGS as u32;
    }
    if least < 1 || rate < least || rate > 1_000_000_000 {
        return refusal::RATE as u32;
    }
    if out_len < RESULT_BYTES {
        return refusal::BUFFER as u32;
    }
    put_result(out, decrease_of_rust(&Decrease { rate, factor, least }).into());
    0
}

fn put_result(out: *mut u8, number: u64) {
    // `out` has room for the result: it was looked at.
    unsafe { out.cast::<[u8; RESULT_BYTES]>().write(number.to_le_bytes()) }
}

/// The line of a word; `write!` to a String cannot fail.
fn put_line(text: &mut String, index: usize, reply: &Reply) {
    let _ = write!(text, "{index} {}", reply.answer);
    put_fields(text, &reply.fields);
    text.push('\n');
}

fn put_fields(text: &mut String, fields: &Fields) {
    let _ = match fields {
        Fields::None => Ok(()),
        Fields::Signal(signals) => write!(text, " {}", u8::from(*signals)),
        Fields::Updates(None) => write!(text, " none"),
        Fields::Updates(Some(updates)) => {
            let _ = write!(text, " {}", updates.len());
            updates.iter().try_for_each(|update| {
                let (id, previous, new) = (update.writer_id, update.previous_bps, update.budget_bps);
                write!(text, " {id}:{previous}:{new}")
            })
        }
        Fields::Send(SendAction::Empty) => write!(text, " empty"),
        Fields::Send(SendAction::Send(sample)) => {
            let (class, sequence, length) = (sample.priority.as_u8(), sample.sequence, sample.data.len());
            write!(text, " sent {class} {sequence} {length}")
        }
        Fields::Send(SendAction::RateLimited { wait_time }) => write!(text, " wait {}", wait_time.as_nanos()),
    };
}

/// The checksum of so many runs.
fn again(times: usize, mut run: impl FnMut() -> u64) -> u64 {
    (0..times).fold(0, |sum, _| mix(sum, run()))
}
