//! Tapes of document 01: words that are decoded (item), run on a station (run) and answered by lines (print).

use std::io::{self, Read, Write};

pub mod command;
mod compare;
mod count;
pub mod item;
pub mod many;
mod print;
pub mod run;
mod show;

/// The player reads so many bytes of its input and no more.
pub const READ_BYTES: usize = 65_536;

/// What the tape player prints for an input.
pub fn player_text(input: &[u8]) -> Vec<u8> {
    text(&input[..input.len().min(READ_BYTES)])
}

/// The header and the lines of a whole tape, however long it is.
pub fn text(tape: &[u8]) -> Vec<u8> {
    print::text(&run::run(tape))
}

/// Plays the tape on `input`; all of it where `whole`, else as the player reads it.
pub fn play(mut input: impl Read, mut output: impl Write, whole: bool) -> io::Result<()> {
    let mut tape = Vec::new();
    input.read_to_end(&mut tape)?;
    let lines = if whole {
        text(&tape)
    } else {
        player_text(&tape)
    };
    output.write_all(&lines)?;
    output.flush()
}
