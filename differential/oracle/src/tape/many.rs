//! Many tapes in one file: before each tape the number of its kind and its length, two little-endian 32-bit words.

use std::io::{self, Read, Write};

use crate::generate::tapes;

#[derive(Debug, PartialEq)]
pub struct Tape {
    /// A place in `tapes::KINDS`.
    pub kind: usize,
    pub bytes: Vec<u8>,
}

impl Tape {
    pub fn kind_name(&self) -> &'static str {
        tapes::KINDS[self.kind].name
    }
}

pub fn write(tapes: &[Tape], output: &mut impl Write) -> io::Result<()> {
    for tape in tapes {
        output.write_all(&(tape.kind as u32).to_le_bytes())?;
        output.write_all(&(tape.bytes.len() as u32).to_le_bytes())?;
        output.write_all(&tape.bytes)?;
    }
    Ok(())
}

pub fn read(mut input: impl Read) -> io::Result<Vec<Tape>> {
    let mut file = Vec::new();
    input.read_to_end(&mut file)?;
    let mut rest = &file[..];
    let mut tapes = Vec::new();
    while !rest.is_empty() {
        let kind = take_number(&mut rest)?;
        let length = take_number(&mut rest)?;
        if kind >= tapes::KINDS.len() || length > rest.len() {
            return Err(not_tapes());
        }
        let (bytes, after) = rest.split_at(length);
        rest = after;
        tapes.push(Tape {
            kind,
            bytes: bytes.to_vec(),
        });
    }
    Ok(tapes)
}

fn take_number(rest: &mut &[u8]) -> io::Result<usize> {
    let (number, after) = rest.split_first_chunk().ok_or_else(not_tapes)?;
    *rest = after;
    Ok(u32::from_le_bytes(*number) as usize)
}

fn not_tapes() -> io::Error {
    io::Error::new(io::ErrorKind::InvalidData, "this is no file of tapes")
}
