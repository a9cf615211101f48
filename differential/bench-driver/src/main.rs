//! The benchmark: the same lists of calls on the proved code, on its parts and by value, and on the Rust of hdds; and the same tapes, keys
//! and rates on the C functions of the static library and on the oracle.
//! differential/bench puts this package beside the oracle's, whose copies of the Rust it is built with.

#[path = "../../oracle/src/clock.rs"]
#[allow(dead_code)] // The lists read part of it.
mod clock;
#[path = "../../oracle/src/congestion/mod.rs"]
#[allow(dead_code)] // The Rust as it stands; the lists reach part of it.
mod congestion;
mod control;
#[path = "../../oracle/src/digest.rs"]
#[allow(dead_code)] // The oracle's, as those below with a path: its tape player reaches part of them.
mod digest;
mod doors;
#[path = "../../oracle/src/line.rs"]
#[allow(dead_code)]
mod line;
mod measure;
#[path = "../../oracle/src/operation.rs"]
#[allow(dead_code)]
mod operation;
#[path = "../../oracle/src/overflow.rs"]
mod overflow;
mod pacer;
#[allow(dead_code)]
mod play;
mod random;
#[path = "../../oracle/src/refusal.rs"]
#[allow(dead_code)]
mod refusal;
#[path = "../../oracle/src/script.rs"]
#[allow(dead_code)]
mod script;
#[path = "../../oracle/src/station.rs"]
#[allow(dead_code)]
mod station;
#[allow(dead_code)]
mod tape;

use measure::Table;
use random::Random;

/// Lists of random calls that must agree before anything is timed, of each table, and the calls of each.
const AGREED_LISTS: u64 = 200;
const AGREED_CALLS: usize = 5_000;

/// The one argument is the file of the sample day's tape.
fn main() {
    let mut pacer = Table::new(pacer::Bench::new(), pacer::rows());
    let mut control = Table::new(control::Bench, control::rows());
    let mut doors = doors::table(sample_day());
    let seeds = || (1..=AGREED_LISTS).map(Random::new);
    pacer.assert_agreed(seeds().map(|mut random| pacer::random(&mut random, AGREED_CALLS)));
    control.assert_agreed(seeds().map(|mut random| control::random(&mut random, AGREED_CALLS)));
    doors.assert_agreed(seeds());
    println!("{AGREED_LISTS} lists of {AGREED_CALLS} random calls for each table: equal checksums");
    println!("{} random tapes, {AGREED_LISTS} keys, {AGREED_LISTS} lists of rates: equal results", 2 * AGREED_LISTS);
    println!();
    pacer.measure();
    println!("{pacer}");
    control.measure();
    println!("{control}");
    doors.measure();
    print!("{doors}");
}

fn sample_day() -> Vec<u8> {
    let file = std::env::args_os().nth(1).expect("the file of a tape");
    std::fs::read(file).expect("a tape that can be read")
}
