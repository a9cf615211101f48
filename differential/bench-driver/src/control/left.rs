//! What a list leaves, joined to its checksum at the end as crates/bench_control/src/left.rt does.

use crate::clock::Instant;
use crate::congestion::controller::CongestionController;
use crate::congestion::ecn::EcnProcessor;
use crate::congestion::rtt_estimator::RttEstimator;
use crate::congestion::scorer::{CongestionScorer, ScorerState};
use crate::measure::mix;
use crate::play::{ecn, rate};

pub fn bits(x: f32) -> u64 {
    x.to_bits().into()
}

fn all<const N: usize>(sum: u64, numbers: [u64; N]) -> u64 {
    numbers.into_iter().fold(sum, mix)
}

/// Whether a time is there, and the time or 0.
fn moment(time: Option<Instant>) -> [u64; 2] {
    [time.is_some().into(), time.map_or(0, Instant::nanoseconds)]
}

pub fn mix_estimator(sum: u64, estimator: &RttEstimator) -> u64 {
    let floats = [estimator.rtt(), estimator.baseline(), estimator.variance()].map(bits);
    let sum = mix(all(sum, floats), estimator.samples());
    all(sum, moment(estimator.last_sample()))
}

pub fn mix_processor(sum: u64, processor: &EcnProcessor) -> u64 {
    all(sum, ecn::state(processor))
}

fn mix_scorer(sum: u64, scorer: &CongestionScorer) -> u64 {
    let (pending, metrics) = (scorer.pending(), scorer.metrics());
    let is_congested = scorer.state() == ScorerState::Congested;
    let sum = all(sum, [scorer.last_tick().nanoseconds(), is_congested.into()]);
    let sum = all(all(sum, moment(scorer.cooldown_until())), moment(scorer.stable_since()));
    all(
        sum,
        [
            pending.eagain_count.into(),
            pending.rtt_inflated.into(),
            pending.nack_count.into(),
            pending.loss_count.into(),
            metrics.eagain_signals,
            metrics.rtt_signals,
            metrics.nack_signals,
            metrics.ticks,
            metrics.congestion_events,
            metrics.recovery_events,
            bits(metrics.peak_score),
            metrics.congested_duration.as_nanos() as u64,
        ],
    )
}

pub fn mix_controller(sum: u64, controller: &CongestionController) -> u64 {
    let (allocator, metrics) = (controller.allocator(), controller.metrics());
    let stats = allocator.stats();
    let shared_out = [stats.reallocations, stats.writers_registered, stats.total_distributed_bps];
    let sum = all(mix(sum, allocator.global_budget().into()), shared_out);
    let sum = all(mix_scorer(sum, controller.scorer()), rate::history(controller.rate_controller()));
    let processor = controller.ecn_processor().expect("ECN is on");
    all(
        mix_processor(sum, processor),
        [
            metrics.current_rate_bps.into(),
            metrics.eagain_total,
            metrics.ecn_ce_received,
            controller.nack_count_window().into(),
            controller.nack_window_start().nanoseconds(),
            controller.last_tick().nanoseconds(),
        ],
    )
}
