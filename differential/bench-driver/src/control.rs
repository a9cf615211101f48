//! Congestion control: its workloads in the order of the table.

mod left;
mod list;
mod side;

pub use list::random;
pub use side::Bench;

use crate::measure::Row;
use list::{List, Part, Single};

pub fn rows() -> Vec<Row<List>> {
    vec![
        Row::new("tick, no change, no peers", list::unchanged(0)),
        Row::new("tick, no change, 64 peers", list::unchanged(64)),
        Row::new("tick, new rate, 4 writers", list::changing(4)),
        Row::new("tick, new rate, 64 writers", list::changing(64)),
        Row::new("set_rate, 4 writers", list::rates(4)),
        Row::new("set_rate, 64 writers", list::rates(64)),
        Row::new("RTT update, one estimator", list::estimates()),
        Row::new("on_rtt_sample, 4 peers", list::samples(4)),
        Row::new("on_rtt_sample, 64 peers", list::samples(64)),
        Row::new("on_ecn_tos", list::packets(Part::Controller { other: false })),
        Row::new("process_tos, one processor", list::packets(Part::Single(Single::Processor))),
        Row::new("decrease", list::decreases()),
    ]
}
