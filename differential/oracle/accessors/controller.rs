
impl<O: MetricsObserver> CongestionController<O> {
    pub fn scorer(&self) -> &CongestionScorer {
        &self.scorer
    }

    pub fn rate_controller(&self) -> &RateController {
        &self.rate_controller
    }

    pub fn allocator(&self) -> &BudgetAllocator {
        &self.allocator
    }

    pub fn rtt_tracker(&self) -> &PeerRttTracker {
        &self.rtt_tracker
    }

    pub fn ecn_processor(&self) -> Option<&EcnProcessor> {
        self.ecn_processor.as_ref()
    }

    pub fn last_tick(&self) -> Instant {
        self.last_tick
    }

    pub fn nack_count_window(&self) -> u32 {
        self.nack_count_window
    }

    pub fn nack_window_start(&self) -> Instant {
        self.nack_window_start
    }
}
