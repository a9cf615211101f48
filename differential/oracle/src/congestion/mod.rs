//! The Rust of hdds. differential/build copies the files in beside this one.

pub mod budget_allocator;
pub mod coalescing;
pub mod config;
pub mod controller;
pub mod ecn;
pub mod metrics;
pub mod rate_controller;
pub mod rtt_estimator;
pub mod scorer;
pub mod token_bucket;
pub mod transport_feedback;
pub mod writer_pacer;
