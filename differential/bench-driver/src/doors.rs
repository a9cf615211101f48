//! The C functions of the static library bowunte beside the oracle's Rust: their inputs in the order of the table.

mod list;
mod side;

use std::fmt;

use crate::measure::{Turns, ROUNDS};
use crate::random::Random;
use list::Input;
use side::{Library, Oracle};

/// The table: both sides, and the rows in their order.
pub struct Table {
    library: Library,
    oracle: Oracle,
    rows: Vec<Row>,
}

/// A row: an input, and its best run on each side.
struct Row {
    name: String,
    input: Input,
    best: Turns,
}

/// The sample day is read from a file; all other inputs are made here.
pub fn table(day: Vec<u8>) -> Table {
    let mut rows = Vec::new();
    let mut add = |name: String, input: Input| rows.push(Row { name, input, best: Turns::default() });
    add("an end alone".into(), list::end());
    add("document 01's tape".into(), list::document());
    add("the sample day".into(), list::tape(day));
    add("busy, 64 bytes".into(), list::busy(64, 4_000));
    add("busy, 1472 bytes".into(), list::busy(1_472, list::LONG_WORDS));
    add("congested".into(), list::congested());
    add("RTT storm, 64 peers".into(), list::samples());
    add("ticks, rate unchanged".into(), list::ticks());
    add("rate settings and ticks, 4 updates".into(), list::rates());
    for words in [1_000, 4_000, 16_000] {
        add(format!("busy, any length, {words} words"), list::growing(words));
    }
    for length in [8, 64, 1_472, 65_536] {
        add(format!("key hash, {length} bytes"), list::key(length));
    }
    add("decrease".into(), list::decreases());
    for length in [8, 64] {
        add(format!("key hash, {length} bytes, both called"), list::called(list::key(length)));
    }
    add("decrease, both called".into(), list::called(list::decreases()));
    Table { library: Library::default(), oracle: Oracle::default(), rows }
}

impl Table {
    /// Panics where the sides do not agree on a row's input or on one of so many random ones.
    pub fn assert_agreed(&mut self, randoms: impl Iterator<Item = Random>) {
        for mut random in randoms {
            for input in list::random(&mut random) {
                side::assert_agreed(&mut self.library, &mut self.oracle, &input);
            }
        }
        for row in &self.rows {
            side::assert_agreed(&mut self.library, &mut self.oracle, &row.input);
        }
    }

    pub fn measure(&mut self) {
        let (library, oracle) = (&mut self.library, &mut self.oracle);
        for _ in 0..ROUNDS {
            for Row { input, best, .. } in &mut self.rows {
                best.round(|| library.run(input), || oracle.run(input));
            }
        }
    }
}

impl fmt::Display for Table {
    fn fmt(&self, f: &mut fmt::Formatter<'_>) -> fmt::Result {
        writeln!(f, "{HEAD}")?;
        self.rows.iter().try_for_each(|row| writeln!(f, "{}", row.shown()))
    }
}

const HEAD: &str = "\
| nanoseconds per word, byte or call  | per  | bowunte |   Rust | per item | Rust, per item | bowunte / Rust | goal   |
|-------------------------------------|------|--------:|-------:|---------:|---------------:|---------------:|--------|";

impl Row {
    fn shown(&self) -> String {
        let (name, input) = (&self.name, &self.input);
        let (library, rust) = self.best.nanoseconds();
        let (unit, units) = input.units();
        let per_unit = |nanoseconds: f64| nanoseconds / units as f64;
        let per_item = |nanoseconds: f64| match input.items() {
            0 => "none".to_string(),
            items => format!("{:.1}", nanoseconds / items as f64),
        };
        let columns = [
            format!("{name:<35}"),
            format!("{unit:<4}"),
            format!("{:>7.2}", per_unit(library)),
            format!("{:>6.2}", per_unit(rust)),
            format!("{:>8}", per_item(library)),
            format!("{:>14}", per_item(rust)),
            format!("{:>14.2}", library / rust),
            format!("{:<6}", goal(library / rust)),
        ];
        format!("| {} |", columns.join(" | "))
    }
}

/// No slower than the Rust, as far as two digits of the ratio tell.
fn goal(ratio: f64) -> &'static str {
    if ratio < 1.005 {
        "met"
    } else {
        "missed"
    }
}
