//! The writer pacer: its workloads in the order of the table.

mod list;
mod side;

pub use list::random;
pub use side::Bench;

use crate::measure::Row;
use list::List;

pub fn rows() -> Vec<Row<List>> {
    let mut rows = Vec::new();
    let mut add = |name: String, list: List| rows.push(Row::new(name, list));
    for length in [64, 1472] {
        add(format!("P1 hand-in, full ring, {length} bytes"), list::full_ring(length));
        for class in 0..3 {
            let name = format!("P{class} hand-in + send, {length} bytes");
            add(name, list::hand_in_and_send(class, length));
        }
        add(format!("send, wait told, {length} bytes"), list::wait_told(length));
        add(format!("four pacers mixed, {length} bytes"), list::mixed(length));
    }
    add("send, empty queues".to_string(), list::empty());
    for keys in [1, 10, 100] {
        let plural = if keys == 1 { "" } else { "s" };
        add(format!("P2 replacing, {keys} key{plural}, 64 bytes"), list::replacing(keys));
    }
    rows
}
