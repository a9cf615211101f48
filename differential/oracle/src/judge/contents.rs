//! Contents steer nothing: a script with other bytes gets the same lines, but for digests of bytes.

use std::io::{self, BufRead, Read, Write};

use crate::operation::*;
use crate::script::{read_record, Record};
use crate::show;

/// The bit in which every byte differs.
const OTHER: u64 = 0x80;
/// A pattern's number with this bit the other way has every byte with `OTHER` the other way.
const OTHER_PATTERN: u64 = 0x8000;
/// How many differences are told in full.
const TOLD: u64 = 3;

/// Digests of bytes in a station line, its operation's number being in place 0: of the record sent, and of what waits.
const STATION_BYTES: [usize; 2] = [8, 44];
/// The digest of the pool.
const POOL_BYTES: [usize; 1] = [2];

/// The script with every byte of every record and of the pool changed; lengths and keys stay.
pub fn rewrite(mut script: impl Read, mut output: impl Write) -> io::Result<()> {
    while let Some(record) = read_record(&mut script)? {
        output.write_all(&other(record).to_bytes())?;
    }
    output.flush()
}

fn other(mut record: Record) -> Record {
    match record.operation {
        BYTES_JOIN => {
            for word in &mut record.arguments[1..] {
                *word ^= u64::MAX / 255 * OTHER;
            }
        }
        BYTES_PATTERN => record.arguments[1] ^= OTHER_PATTERN,
        POOL_FILL => record.arguments[1] ^= OTHER,
        _ => {}
    }
    record
}

/// Tells how many lines of the two scripts differ in more than digests of bytes; true where none does.
pub fn alike(
    mut script: impl Read,
    lines: impl BufRead,
    others: impl BufRead,
    mut output: impl Write,
) -> io::Result<bool> {
    let (mut lines, mut others) = (lines.lines(), others.lines());
    let (mut index, mut steered, mut with_bytes) = (0u64, 0u64, 0u64);
    let mut told = Vec::new();
    while let Some(record) = read_record(&mut script)? {
        let (line, other) = (lines.next().transpose()?, others.next().transpose()?);
        with_bytes += u64::from(line != other);
        if line.is_none() || without_bytes(&record, &line) != without_bytes(&record, &other) {
            steered += 1;
            if steered <= TOLD {
                writeln!(told, "  record {index}: {}", show::text(&record))?;
                writeln!(told, "    {line:?}\n    with other bytes: {other:?}")?;
            }
        }
        index += 1;
    }
    match steered {
        0 => write!(output, "no line is steered by contents")?,
        1 => write!(output, "1 line is steered by contents")?,
        more => write!(output, "{more} lines are steered by contents")?,
    }
    writeln!(
        output,
        ", {with_bytes} of {index} have other digests of bytes"
    )?;
    output.write_all(&told)?;
    Ok(steered == 0)
}

/// The words of a line but for digests of bytes.
fn without_bytes<'a>(record: &Record, line: &'a Option<String>) -> Vec<&'a str> {
    let digests: &[usize] = match record.operation {
        STATION_NEW..=STATION_CALLS => &STATION_BYTES,
        POOL_SHOW => &POOL_BYTES,
        _ => &[],
    };
    let words = line.iter().flat_map(|line| line.split(' ')).enumerate();
    words
        .filter(|(place, _)| !digests.contains(place))
        .map(|(_, word)| word)
        .collect()
}
