//! Scripts: records of six little-endian words.

use std::io::{self, Read, Write};

pub const RECORD_BYTES: usize = 48;

/// One call: the operation and its arguments `a` to `e`.
#[derive(Clone, Copy, Debug, PartialEq, Eq)]
pub struct Record {
    pub operation: u64,
    pub arguments: [u64; 5],
}

impl Record {
    fn from_bytes(bytes: &[u8; RECORD_BYTES]) -> Self {
        let word = |i: usize| {
            let mut word = [0; 8];
            word.copy_from_slice(&bytes[8 * i..8 * i + 8]);
            u64::from_le_bytes(word)
        };
        Self {
            operation: word(0),
            arguments: [word(1), word(2), word(3), word(4), word(5)],
        }
    }

    pub fn to_bytes(self) -> [u8; RECORD_BYTES] {
        let mut bytes = [0; RECORD_BYTES];
        bytes[..8].copy_from_slice(&self.operation.to_le_bytes());
        for (i, argument) in self.arguments.iter().enumerate() {
            bytes[8 * i + 8..8 * i + 16].copy_from_slice(&argument.to_le_bytes());
        }
        bytes
    }
}

/// The next whole record; none at the end or where the last one is cut short.
pub fn read_record(input: &mut impl Read) -> io::Result<Option<Record>> {
    let mut bytes = [0; RECORD_BYTES];
    match input.read_exact(&mut bytes) {
        Ok(()) => Ok(Some(Record::from_bytes(&bytes))),
        Err(error) if error.kind() == io::ErrorKind::UnexpectedEof => Ok(None),
        Err(error) => Err(error),
    }
}

/// A script in the making.
#[derive(Default)]
pub struct Script {
    records: Vec<Record>,
}

impl Script {
    /// Adds a call; arguments that are not given are 0.
    pub fn call(&mut self, operation: u64, given: &[u64]) {
        let mut arguments = [0; 5];
        arguments[..given.len()].copy_from_slice(given);
        self.records.push(Record {
            operation,
            arguments,
        });
    }

    pub fn len(&self) -> usize {
        self.records.len()
    }

    pub fn truncate(&mut self, len: usize) {
        self.records.truncate(len);
    }

    pub fn write(&self, output: &mut impl Write) -> io::Result<()> {
        for record in &self.records {
            output.write_all(&record.to_bytes())?;
        }
        Ok(())
    }
}
