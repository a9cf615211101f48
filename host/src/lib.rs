//! The proved congestion control of a radio link, called from Rust: the key hash, the rate decrease and the tape run.
//!
//! The functions are those of `include/bowunte.h`. They keep no state, so that calls from several threads do not disturb
//! each other. What each of them answers is proved of the code that is linked here; the names and numbers are those of the
//! project's specification.

use std::fmt;

mod doors;

/// Why a call was turned down.
#[derive(Clone, Copy, Debug, PartialEq, Eq)]
#[repr(u32)]
pub enum Refusal {
    /// A factor outside (0, 1], or NaN.
    Factor = 2,
    /// A least rate of 0, a rate below it, or a rate above [`MAX_RATE`].
    Rate = 6,
    /// A lent buffer that is too short.
    ShortBuffer = 8,
}

impl Refusal {
    /// The number under which the specification has it.
    ///
    /// ```
    /// assert_eq!(bowunte::Refusal::ShortBuffer.number(), 8);
    /// ```
    pub fn number(self) -> u32 {
        self as u32
    }

    fn of(number: u32) -> Self {
        match number {
            2 => Refusal::Factor,
            6 => Refusal::Rate,
            8 => Refusal::ShortBuffer,
            _ => panic!("bowunte answered {number}, which none of its functions does"),
        }
    }
}

impl fmt::Display for Refusal {
    fn fmt(&self, formatter: &mut fmt::Formatter<'_>) -> fmt::Result {
        let text = match self {
            Refusal::Factor => "the factor is not above 0 and at most 1",
            Refusal::Rate => "the rates are not 1 <= least rate <= rate <= 1000000000",
            Refusal::ShortBuffer => "a lent buffer is too short",
        };
        write!(formatter, "{text} ({})", self.number())
    }
}

impl std::error::Error for Refusal {}

/// The largest rate, in bytes per second.
pub const MAX_RATE: u32 = 1_000_000_000;

/// The key hash of some bytes: FNV-1a, 64 bits.
///
/// ```
/// assert_eq!(bowunte::key_hash(b""), 0xcbf2_9ce4_8422_2325);
/// assert_eq!(bowunte::key_hash(b"foobar"), 0x8594_4171_f739_67e8);
/// ```
pub fn key_hash(data: &[u8]) -> u64 {
    doors::key_hash(data).expect("only a short result buffer turns the key hash down")
}

/// The rate after a decrease: the rate as f32 times the factor, cut to an integer, and at least the least rate. Where
/// the product is above the rate, which only rounding at factor 1 can do, the rate stays.
///
/// ```
/// use bowunte::{rate_decrease, Refusal};
///
/// assert_eq!(rate_decrease(100_000_000, 0.5, 10_000), Ok(50_000_000));
/// assert_eq!(rate_decrease(12_000, 0.5, 10_000), Ok(10_000));
/// assert_eq!(rate_decrease(16_777_219, 1.0, 1), Ok(16_777_219));
/// assert_eq!(rate_decrease(12_000, f32::NAN, 10_000), Err(Refusal::Factor));
/// assert_eq!(rate_decrease(9_999, 0.5, 10_000), Err(Refusal::Rate));
/// ```
pub fn rate_decrease(rate: u32, factor: f32, least_rate: u32) -> Result<u32, Refusal> {
    let decreased = doors::rate_decrease(rate, factor, least_rate)?;
    Ok(u32::try_from(decreased).expect("a decreased rate is at most the rate"))
}

/// How many bytes of lines a tape of `tape_bytes` bytes needs. A last word that is cut short counts as a word.
///
/// ```
/// assert_eq!(bowunte::lines_bytes(0), 24);
/// assert_eq!(bowunte::lines_bytes(5), 24 + 2 * 192);
/// ```
pub const fn lines_bytes(tape_bytes: usize) -> usize {
    tape_bytes
        .div_ceil(4)
        .saturating_mul(192)
        .saturating_add(24)
}

/// Runs a tape on a new station; the lines that it is answered by. A tape that breaks off has them too, and the last one
/// says where. While it runs, [`lines_bytes`] of the tape are taken.
///
/// ```
/// // Two writers register, the link reports EAGAIN, 100 ms pass, and the tick halves the rate.
/// let words: [u32; 7] = [
///     0x2000_0004, 0x2000_0009, 0x3000_0000, 0x1001_86a0, 0x4000_0000, 0x6000_0000, 0x0000_0000,
/// ];
/// let tape: Vec<u8> = words.iter().flat_map(|word| word.to_le_bytes()).collect();
/// let lines = bowunte::tape_run(&tape)?;
/// assert_eq!(lines.lines().nth(4), Some("4 0 2 1:0:10000000 2:0:28000000"));
/// # Ok::<(), bowunte::Refusal>(())
/// ```
pub fn tape_run(tape: &[u8]) -> Result<String, Refusal> {
    let mut lines = vec![0; lines_bytes(tape.len())];
    let length = tape_run_into(tape, &mut lines)?;
    lines.truncate(length);
    lines.shrink_to_fit();
    Ok(String::from_utf8(lines).expect("lines are ASCII"))
}

/// Runs a tape as [`tape_run`] does and writes its lines to the front of `lines`, which must have [`lines_bytes`] of the
/// tape; how many bytes they are. Bytes behind them keep their values, and all of them where the call is turned down.
///
/// ```
/// use bowunte::{lines_bytes, tape_run_into, Refusal};
///
/// let tape = [0; 4];
/// let mut lines = [b'.'; lines_bytes(4)];
/// assert_eq!(tape_run_into(&tape, &mut lines), Ok(19));
/// assert_eq!(&lines[..20], b"word answer fields\n.");
/// assert_eq!(tape_run_into(&tape, &mut lines[1..]), Err(Refusal::ShortBuffer));
/// ```
pub fn tape_run_into(tape: &[u8], lines: &mut [u8]) -> Result<usize, Refusal> {
    let length = doors::tape_run(tape, lines)?;
    Ok(usize::try_from(length).expect("lines are within their buffer"))
}
