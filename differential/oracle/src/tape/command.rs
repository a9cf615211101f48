//! The commands `oracle tape` and `oracle tapes`.

use std::io::{self, BufWriter, Write};
use std::path::Path;

use crate::generate::tapes;
use crate::tape::{self, compare, count, many, show};
use crate::{done, whole_number};

pub const USAGE: &str = "\
usage: oracle tape [--whole] < TAPE                what the tape player prints; --whole reads past 65,536 bytes
       oracle tapes generate --tapes N --seed S [--kind NAME]...
                                                   a file of many tapes
       oracle tapes play < TAPES                   the lines of each, after the tape's number and kind
       oracle tapes compare PLAYER KEPT < TAPES    plays each on the program PLAYER too and keeps those that differ in
                                                   the folder KEPT
       oracle tapes count < TAPES                  how often each word, answer and kind of field occurs
       oracle tapes show < TAPE                    one tape as text, each item and the Rust's line below it
       oracle tapes kinds                          the names of the kinds of tapes";

pub fn tape(words: &[&str]) -> Result<bool, String> {
    let whole = match words {
        [] => false,
        ["--whole"] => true,
        _ => return Err(USAGE.into()),
    };
    done(tape::play(io::stdin(), io::stdout(), whole))
}

pub fn tapes(words: &[&str]) -> Result<bool, String> {
    let mut output = BufWriter::with_capacity(1 << 16, io::stdout());
    match words {
        ["generate", options @ ..] => {
            let tapes = generate(options)?;
            done(many::write(&tapes, &mut output).and_then(|()| output.flush()))
        }
        ["play"] => done(play(&read()?, output)),
        ["compare", player, kept] => {
            let tapes = read()?;
            compare::compare(&tapes, player, Path::new(kept), output)
                .map_err(|error| format!("the player {player}: {error}"))
        }
        ["count"] => done(count::count(&read()?, output)),
        ["show"] => done(show::show(io::stdin(), output)),
        ["kinds"] => {
            for kind in &tapes::KINDS {
                println!("{}", kind.name);
            }
            Ok(true)
        }
        _ => Err(USAGE.into()),
    }
}

fn read() -> Result<Vec<many::Tape>, String> {
    many::read(io::stdin()).map_err(|error| error.to_string())
}

fn play(tapes: &[many::Tape], mut output: impl Write) -> io::Result<()> {
    for (number, tape) in tapes.iter().enumerate() {
        writeln!(output, "tape {number} {}", tape.kind_name())?;
        output.write_all(&tape::player_text(&tape.bytes))?;
    }
    output.flush()
}

fn generate(mut options: &[&str]) -> Result<Vec<many::Tape>, String> {
    let (mut count, mut seed, mut kinds) = (None, None, Vec::new());
    while !options.is_empty() {
        options = match options {
            ["--tapes", number, rest @ ..] => {
                count = Some(whole_number(number)? as usize);
                rest
            }
            ["--seed", number, rest @ ..] => {
                seed = Some(whole_number(number)?);
                rest
            }
            ["--kind", name, rest @ ..] => {
                kinds.push(tapes::find(name).ok_or(format!("there is no kind '{name}'"))?);
                rest
            }
            _ => return Err(USAGE.into()),
        };
    }
    let (Some(count), Some(seed)) = (count, seed) else {
        return Err(USAGE.into());
    };
    if kinds.is_empty() {
        kinds.extend(0..tapes::KINDS.len());
    }
    Ok(tapes::generate(&kinds, count, seed))
}
