//! Plays a tape file: `cargo run --example play -- TAPE` prints its lines.

use std::error::Error;
use std::{env, fs};

fn main() -> Result<(), Box<dyn Error>> {
    let path = env::args_os().nth(1).ok_or("usage: play TAPE")?;
    let tape = fs::read(path)?;
    print!("{}", bowunte::tape_run(&tape)?);
    Ok(())
}
