//! The C functions of document 01 as the Rust has them: requests as lines of text, and the same lines with an answer.
//! An answer is a number of document 01 and, where it is 0, the result.

use std::io::{self, BufRead, Write};

use crate::clock;
use crate::congestion::rate_controller::RateController;
use crate::congestion::scorer::CongestionAction;
use crate::play::coalescing::hash_bytes;
use crate::play::rate::{apply, rate_beyond};
use crate::refusal;
use crate::tape;

pub enum Request {
    KeyHash(Vec<u8>),
    /// The factor is its bits.
    Decrease {
        rate: u32,
        factor: u32,
        least: u32,
    },
    TapeRun(Vec<u8>),
}

impl Request {
    pub fn text(&self) -> String {
        match self {
            Request::KeyHash(bytes) => format!("hash {}", hex(bytes)),
            Request::Decrease {
                rate,
                factor,
                least,
            } => format!("decrease {rate} {factor:08x} {least}"),
            Request::TapeRun(tape) => format!("tape {}", hex(tape)),
        }
    }

    fn parse(line: &str) -> Option<Self> {
        let words: Vec<&str> = line.split(' ').collect();
        Some(match words[..] {
            ["hash", bytes] => Request::KeyHash(unhex(bytes)?),
            ["decrease", rate, factor, least] => Request::Decrease {
                rate: rate.parse().ok()?,
                factor: u32::from_str_radix(factor, 16).ok()?,
                least: least.parse().ok()?,
            },
            ["tape", tape] => Request::TapeRun(unhex(tape)?),
            _ => return None,
        })
    }

    /// With lent buffers that are long enough. The lines of a tape are shown with `/` for the end of each.
    fn answer(&self) -> String {
        match self {
            Request::KeyHash(bytes) => format!("0 {}", hash_bytes(bytes)),
            Request::Decrease {
                rate,
                factor,
                least,
            } => match decrease(*rate, f32::from_bits(*factor), *least) {
                Ok(rate) => format!("0 {rate}"),
                Err(number) => number.to_string(),
            },
            Request::TapeRun(tape) => {
                let lines = String::from_utf8(tape::text(tape)).expect("lines are ASCII");
                format!("0 {} {}", lines.len(), lines.replace('\n', "/"))
            }
        }
    }
}

/// Nothing is a dash.
fn hex(bytes: &[u8]) -> String {
    match bytes {
        [] => "-".into(),
        _ => bytes.iter().map(|byte| format!("{byte:02x}")).collect(),
    }
}

fn unhex(text: &str) -> Option<Vec<u8>> {
    if text == "-" {
        return Some(Vec::new());
    }
    let digits: Option<Vec<u8>> = text
        .chars()
        .map(|digit| Some(digit.to_digit(16)? as u8))
        .collect();
    let pairs = digits?;
    let pairs = pairs.chunks(2);
    pairs
        .map(|pair| match pair {
            [high, low] => Some(high << 4 | low),
            _ => None,
        })
        .collect()
}

/// The rate after the Rust's decrease, or the number by which the request is turned down.
fn decrease(rate: u32, factor: f32, least: u32) -> Result<u32, u64> {
    let factor_beyond = !(factor > 0.0 && factor <= 1.0);
    let answer = refusal::first(&[
        (factor_beyond, refusal::SETTINGS),
        (
            least < 1 || rate < least || rate_beyond(rate),
            refusal::RATE,
        ),
    ]);
    if answer != refusal::ACCEPTED {
        return Err(answer);
    }
    clock::set(0);
    let largest = refusal::MAX_RATE as u32;
    let mut controller = RateController::with_params(rate, least, largest, 0, factor, factor);
    apply(&mut controller, CongestionAction::DecreaseHard);
    Ok(controller.rate())
}

/// Each request and, behind it, its answer.
pub fn answer(requests: impl BufRead, mut output: impl Write) -> io::Result<()> {
    for line in requests.lines() {
        let line = line?;
        let Some(request) = Request::parse(&line) else {
            let message = format!("this is no request: {line}");
            return Err(io::Error::new(io::ErrorKind::InvalidData, message));
        };
        writeln!(output, "{line} = {}", request.answer())?;
    }
    output.flush()
}
