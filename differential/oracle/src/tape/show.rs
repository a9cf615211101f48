//! A tape as text: each item in words and, below it, the Rust's line.

use std::io::{self, Read, Write};

use crate::tape::item::{decode, Item};
use crate::tape::print::line_text;
use crate::tape::run::run;
use crate::tape::READ_BYTES;

pub fn show(mut input: impl Read, mut output: impl Write) -> io::Result<()> {
    let mut tape = Vec::new();
    input.read_to_end(&mut tape)?;
    tape.truncate(READ_BYTES);
    let lines = run(&tape);
    let mut lines = lines.iter().peekable();
    let mut index = 0;
    while let Some((item, words)) = decode(&tape, index) {
        writeln!(output, "word {index}: {}", words_of(&item))?;
        if let Some(line) = lines.next_if(|line| line.index == index) {
            writeln!(output, "    {}", line_text(line))?;
        }
        if item == Item::End {
            return output.flush();
        }
        index += words;
    }
    writeln!(output, "word {index}: {}", broken(&tape, index))?;
    for line in lines {
        writeln!(output, "    {}", line_text(line))?;
    }
    output.flush()
}

fn words_of(item: &Item) -> String {
    match item {
        Item::Advance { microseconds } => format!("advance by {microseconds} microseconds"),
        Item::Register { id, class } => format!("register {id} in {class:?}"),
        Item::Tos { tos } => format!("TOS {tos:#04x}"),
        Item::Nacks { count } => format!("{count} NACKs"),
        Item::Rtt { peer, bits } => {
            let sample = f32::from_bits(*bits);
            format!("RTT of peer {peer}: {sample:?} ms ({bits:08x})")
        }
        Item::HandIn {
            pacer,
            class,
            key: [topic_hash, key_hash],
            bytes,
        } => {
            let length = bytes.len();
            let key = format!("under the key {topic_hash:016x} {key_hash:016x}");
            format!("hand in {length} bytes to pacer {pacer} in {class:?} {key}")
        }
        Item::Send { pacer } => format!("send attempt of pacer {pacer}"),
        Item::SetRate { rate } => format!("set rate to {rate}"),
        other => other.name().into(),
    }
}

/// What stands where the tape breaks off.
fn broken(tape: &[u8], index: usize) -> String {
    match tape.get(4 * index..) {
        None | Some([]) => "no word: the end is missing".into(),
        Some(rest) => {
            let head: Vec<String> = rest
                .iter()
                .take(4)
                .map(|byte| format!("{byte:02x}"))
                .collect();
            format!("a broken item, bytes {} ..", head.join(" "))
        }
    }
}
