//! Times lists on their sides, in turn, and takes the best of several runs.

use std::fmt;
use std::hint::black_box;
use std::time::{Duration, Instant};

/// Rounds over all rows, so that what else the machine does for a while meets no row in all its runs.
pub const ROUNDS: u32 = 4;
/// Runs of a list in a round on the parts and on the Rust, and by value, which is slow.
const RUNS: u32 = 60;
const RUNS_BY_VALUE: u32 = 5;

/// The three sides that lists are run on. Each gives a checksum of what every call answers.
pub trait Sides {
    type List;

    fn calls(list: &Self::List) -> usize;

    /// The proved code on parts.
    fn parts(&mut self, list: &Self::List) -> u64;

    /// The proved code by value; None where no public call is in the list.
    fn whole(&mut self, list: &Self::List) -> Option<u64>;

    /// The Rust that `parts` is compared with.
    fn rust(&mut self, list: &Self::List) -> u64;

    /// Panics where the proved code and the Rust do not agree on a list.
    fn assert_agreed(&mut self, list: &Self::List);
}

/// The checksum with one number more, as `mix` of crates/bench/src/call.rt.
pub fn mix(sum: u64, x: u64) -> u64 {
    sum.rotate_left(7) ^ x
}

/// A table: the sides, and the rows in their order.
pub struct Table<S: Sides> {
    sides: S,
    rows: Vec<Row<S::List>>,
}

impl<S: Sides> Table<S> {
    pub fn new(sides: S, rows: Vec<Row<S::List>>) -> Self {
        Self { sides, rows }
    }

    /// Panics where the sides do not agree on a row's list or on one of these.
    pub fn assert_agreed(&mut self, lists: impl Iterator<Item = S::List>) {
        for list in lists {
            self.sides.assert_agreed(&list);
        }
        for row in &self.rows {
            self.sides.assert_agreed(&row.list);
        }
    }

    pub fn measure(&mut self) {
        for _ in 0..ROUNDS {
            for row in &mut self.rows {
                row.measure(&mut self.sides);
            }
        }
    }
}

impl<S: Sides> fmt::Display for Table<S> {
    fn fmt(&self, f: &mut fmt::Formatter<'_>) -> fmt::Result {
        writeln!(f, "{HEAD}")?;
        self.rows.iter().try_for_each(|row| {
            let calls = S::calls(&row.list);
            writeln!(f, "{}", row.shown(calls))
        })
    }
}

const HEAD: &str = "\
| nanoseconds per call                |  parts | by value |   Rust | parts / Rust |
|-------------------------------------|-------:|---------:|-------:|-------------:|";

/// A row of the table: a list, and its best run on each side.
pub struct Row<L> {
    name: String,
    list: L,
    parts: Duration,
    whole: Option<Duration>,
    rust: Duration,
}

impl<L> Row<L> {
    pub fn new(name: impl Into<String>, list: L) -> Self {
        let (parts, whole, rust) = (Duration::MAX, None, Duration::MAX);
        Self { name: name.into(), list, parts, whole, rust }
    }

    /// One round; the two sides that are compared take turns.
    fn measure(&mut self, sides: &mut impl Sides<List = L>) {
        for run in 0..RUNS {
            self.parts = self.parts.min(timed(|| sides.parts(&self.list)).0);
            self.rust = self.rust.min(timed(|| sides.rust(&self.list)).0);
            if run < RUNS_BY_VALUE {
                let (time, played) = timed(|| sides.whole(&self.list));
                let best = self.whole.map_or(time, |best| best.min(time));
                self.whole = played.map(|_| best);
            }
        }
    }

    fn shown(&self, calls: usize) -> String {
        let per_call = |best: Duration| best.as_nanos() as f64 / calls as f64;
        let (parts, rust) = (per_call(self.parts), per_call(self.rust));
        let whole = self.whole.map_or("none".to_string(), |best| format!("{:.1}", per_call(best)));
        let (name, ratio) = (&self.name, parts / rust);
        format!("| {name:<35} | {parts:>6.1} | {whole:>8} | {rust:>6.1} | {ratio:>12.2} |")
    }
}

/// The best runs of two sides that take turns.
pub struct Turns {
    first: Duration,
    second: Duration,
}

impl Default for Turns {
    fn default() -> Self {
        Self { first: Duration::MAX, second: Duration::MAX }
    }
}

impl Turns {
    /// One round.
    pub fn round<T>(&mut self, mut first: impl FnMut() -> T, mut second: impl FnMut() -> T) {
        for _ in 0..RUNS {
            self.first = self.first.min(timed(&mut first).0);
            self.second = self.second.min(timed(&mut second).0);
        }
    }

    /// Of each side.
    pub fn nanoseconds(&self) -> (f64, f64) {
        let of = |best: Duration| best.as_nanos() as f64;
        (of(self.first), of(self.second))
    }
}

/// The time that a run takes, and what it gives.
fn timed<T>(run: impl FnOnce() -> T) -> (Duration, T) {
    let start = Instant::now();
    let given = black_box(run());
    (start.elapsed(), given)
}
