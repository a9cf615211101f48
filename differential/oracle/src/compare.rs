//! Compares what two sides answered to a script.

use std::io::{self, BufRead, Read, Write};

use crate::script::{read_record, Record};
use crate::show;

/// How many differences are told in full.
const TOLD: u64 = 3;

/// Tells how many lines differ and the first of them; true where none does.
pub fn compare(
    mut script: impl Read,
    mut oracle: impl BufRead,
    mut replay: impl BufRead,
    mut output: impl Write,
) -> io::Result<bool> {
    let mut told = Vec::new();
    let (mut index, mut differing) = (0u64, 0u64);
    loop {
        let record = read_record(&mut script)?;
        let (ours, theirs) = (next_line(&mut oracle)?, next_line(&mut replay)?);
        if record.is_none() && ours.is_none() && theirs.is_none() {
            break;
        }
        // A record that neither side answers is a difference too.
        if ours != theirs || ours.is_none() || record.is_none() {
            differing += 1;
            if differing <= TOLD {
                tell(&mut told, index, record, ours, theirs)?;
            }
        }
        index += 1;
    }
    match differing {
        0 => writeln!(output, "no difference")?,
        1 => writeln!(output, "1 line differs")?,
        _ => writeln!(output, "{differing} lines differ")?,
    }
    output.write_all(&told)?;
    Ok(differing == 0)
}

/// The next line with its end, or what stands there in its place; none where nothing is left.
fn next_line(lines: &mut impl BufRead) -> io::Result<Option<Vec<u8>>> {
    let mut line = Vec::new();
    lines.read_until(b'\n', &mut line)?;
    Ok(Some(line).filter(|line| !line.is_empty()))
}

fn tell(
    output: &mut impl Write,
    index: u64,
    record: Option<Record>,
    ours: Option<Vec<u8>>,
    theirs: Option<Vec<u8>>,
) -> io::Result<()> {
    match record {
        Some(record) => writeln!(output, "  record {index}: {}", show::text(&record))?,
        None => writeln!(output, "  past the last record:")?,
    }
    writeln!(output, "    oracle: {}", line_text(ours))?;
    writeln!(output, "    replay: {}", line_text(theirs))
}

fn line_text(line: Option<Vec<u8>>) -> String {
    match line {
        None => "(no line)".into(),
        Some(line) => match line.strip_suffix(b"\n") {
            Some(whole) => whole.escape_ascii().to_string(),
            None => format!("{} (the line is not ended)", line.escape_ascii()),
        },
    }
}
