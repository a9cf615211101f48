//! Plays tapes on a tape player, one process for each, and compares what it prints with the oracle's lines.

use std::io::{self, Write};
use std::path::Path;
use std::process::{ChildStdin, Command, Output, Stdio};
use std::sync::atomic::{AtomicUsize, Ordering};
use std::sync::Mutex;
use std::thread;
use std::time::Duration;
use std::{fs, panic};

use crate::generate::tapes::KINDS;
use crate::tape::many::Tape;
use crate::tape::player_text;

/// How many processes run at a time.
const JOBS: usize = 2;
/// How many differences are told in full, and how many are kept.
const TOLD: usize = 3;
const KEPT: usize = 100;
/// One tape in so many comes in pieces, as a slow pipe gives it.
const IN_PIECES: usize = 100;
const PIECES: usize = 3;
const PAUSE: Duration = Duration::from_millis(2);

struct Difference {
    tape: usize,
    oracle: Vec<u8>,
    player: Output,
}

impl Difference {
    /// What became of the player, where it did not end well.
    fn ending(&self) -> Option<String> {
        let status = self.player.status;
        (!status.success()).then(|| format!("the player ended with {status}"))
    }

    /// The first line that differs, as both sides have it.
    fn first_line(&self) -> String {
        let mut ours = self.oracle.split_inclusive(|&byte| byte == b'\n');
        let mut theirs = self.player.stdout.split_inclusive(|&byte| byte == b'\n');
        loop {
            match (ours.next(), theirs.next()) {
                (None, None) => return "    no line differs".into(),
                (ours, theirs) if ours != theirs => {
                    let (ours, theirs) = (line_text(ours), line_text(theirs));
                    return format!("    oracle: {ours}\n    player: {theirs}");
                }
                _ => {}
            }
        }
    }
}

fn line_text(line: Option<&[u8]>) -> String {
    match line {
        None => "(no line)".into(),
        Some(line) => line.escape_ascii().to_string(),
    }
}

/// Tells how many tapes differ; true where none does. The shortest that differ are kept in the folder `kept`.
pub fn compare(
    tapes: &[Tape],
    player: &str,
    kept: &Path,
    mut output: impl Write,
) -> io::Result<bool> {
    let mut differences = differences(tapes, oracle_texts(tapes), player)?;
    tell_kinds(&mut output, tapes, &differences)?;
    differences.sort_by_key(|difference| (tapes[difference.tape].bytes.len(), difference.tape));
    for (place, difference) in differences.iter().enumerate().take(KEPT) {
        let file = keep(&tapes[difference.tape], difference, kept)?;
        if place < TOLD {
            tell(&mut output, difference, &file)?;
        }
    }
    let (count, differing) = (tapes.len(), differences.len());
    writeln!(
        output,
        "differential: {count} tapes, {differing} with differences"
    )?;
    output.flush()?;
    Ok(differences.is_empty())
}

fn tell_kinds(
    output: &mut impl Write,
    tapes: &[Tape],
    differences: &[Difference],
) -> io::Result<()> {
    for (place, kind) in KINDS.iter().enumerate() {
        let of_kind = |tape: &Tape| tape.kind == place;
        let count = tapes.iter().filter(|tape| of_kind(tape)).count();
        let differing = differences
            .iter()
            .filter(|difference| of_kind(&tapes[difference.tape]))
            .count();
        if count > 0 {
            writeln!(output, "{}: {count} tapes, {differing} differ", kind.name)?;
        }
    }
    Ok(())
}

/// The oracle plays alone and first: its clock is one for the whole program.
fn oracle_texts(tapes: &[Tape]) -> Vec<Vec<u8>> {
    static PLAYED: AtomicUsize = AtomicUsize::new(0);
    panic::set_hook(Box::new(|panic| {
        let tape = PLAYED.load(Ordering::Relaxed);
        eprintln!("oracle: the Rust panicked at tape {tape}: {panic}");
    }));
    let played = |tape: &Tape| {
        let text = player_text(&tape.bytes);
        PLAYED.fetch_add(1, Ordering::Relaxed);
        text
    };
    let texts = tapes.iter().map(played).collect();
    let _ = panic::take_hook();
    texts
}

/// The tapes on which the two sides do not agree, in any order.
fn differences(tapes: &[Tape], oracle: Vec<Vec<u8>>, player: &str) -> io::Result<Vec<Difference>> {
    let next = AtomicUsize::new(0);
    let found = Mutex::new(Vec::new());
    let work = || -> io::Result<()> {
        loop {
            let tape = next.fetch_add(1, Ordering::Relaxed);
            if tape >= tapes.len() {
                return Ok(());
            }
            let player = run(player, &tapes[tape].bytes, tape % IN_PIECES == 0)?;
            if !player.status.success() || player.stdout != oracle[tape] {
                let oracle = oracle[tape].clone();
                let difference = Difference {
                    tape,
                    oracle,
                    player,
                };
                found
                    .lock()
                    .expect("no other work panicked")
                    .push(difference);
            }
        }
    };
    thread::scope(|scope| {
        let jobs: Vec<_> = (0..JOBS).map(|_| scope.spawn(work)).collect();
        jobs.into_iter()
            .try_for_each(|job| job.join().expect("no work panics"))
    })?;
    Ok(found.into_inner().expect("no work panicked"))
}

/// Runs the player on a tape. What it is given and what it prints may each be more than a pipe holds.
fn run(player: &str, tape: &[u8], in_pieces: bool) -> io::Result<Output> {
    let mut child = Command::new(player)
        .stdin(Stdio::piped())
        .stdout(Stdio::piped())
        .stderr(Stdio::piped())
        .spawn()?;
    let stdin = child.stdin.take().expect("its input is a pipe");
    thread::scope(|scope| {
        let feeder = scope.spawn(|| feed(stdin, tape, in_pieces));
        let output = child.wait_with_output()?;
        feeder.join().expect("feeding does not panic")?;
        Ok(output)
    })
}

/// A player that does not read all of its input is none the worse for it.
fn feed(mut stdin: ChildStdin, tape: &[u8], in_pieces: bool) -> io::Result<()> {
    let piece = if in_pieces {
        tape.len().div_ceil(PIECES).max(1)
    } else {
        tape.len().max(1)
    };
    for part in tape.chunks(piece) {
        match stdin.write_all(part) {
            Err(error) if error.kind() == io::ErrorKind::BrokenPipe => return Ok(()),
            other => other?,
        }
        if in_pieces {
            thread::sleep(PAUSE);
        }
    }
    Ok(())
}

/// The name of the files without what tells them apart.
fn keep(tape: &Tape, difference: &Difference, kept: &Path) -> io::Result<String> {
    let file = kept.join(format!("{}-{}", tape.kind_name(), difference.tape));
    let file = file.display().to_string();
    fs::write(format!("{file}.tape"), &tape.bytes)?;
    fs::write(format!("{file}.oracle"), &difference.oracle)?;
    fs::write(format!("{file}.player"), &difference.player.stdout)?;
    if !difference.player.stderr.is_empty() {
        fs::write(format!("{file}.player.stderr"), &difference.player.stderr)?;
    }
    Ok(file)
}

fn tell(output: &mut impl Write, difference: &Difference, file: &str) -> io::Result<()> {
    writeln!(output, "  tape {}: {file}.tape", difference.tape)?;
    if let Some(ending) = difference.ending() {
        writeln!(output, "    {ending}")?;
    }
    writeln!(output, "{}", difference.first_line())
}
