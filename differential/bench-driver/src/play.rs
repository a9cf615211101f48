//! The oracle's modules that its tape player is made of, from the files of the oracle.

#[path = "../../oracle/src/play/allocator.rs"]
mod allocator;
#[path = "../../oracle/src/play/bucket.rs"]
mod bucket;
#[path = "../../oracle/src/play/coalescing.rs"]
pub mod coalescing;
#[path = "../../oracle/src/play/config.rs"]
pub mod config;
#[path = "../../oracle/src/play/controller.rs"]
pub mod controller;
#[path = "../../oracle/src/play/ecn.rs"]
pub mod ecn;
#[path = "../../oracle/src/play/numeric.rs"]
mod numeric;
#[path = "../../oracle/src/play/pacer.rs"]
pub mod pacer;
#[path = "../../oracle/src/play/peers.rs"]
mod peers;
#[path = "../../oracle/src/play/pool.rs"]
pub mod pool;
#[path = "../../oracle/src/play/queue.rs"]
mod queue;
#[path = "../../oracle/src/play/rate.rs"]
pub mod rate;
#[path = "../../oracle/src/play/rtt.rs"]
mod rtt;
#[path = "../../oracle/src/play/scorer.rs"]
pub mod scorer;
