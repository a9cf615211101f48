
impl CongestionScorer {
    pub fn last_tick(&self) -> Instant {
        self.last_tick
    }

    pub fn cooldown_until(&self) -> Option<Instant> {
        self.cooldown_until
    }

    pub fn stable_since(&self) -> Option<Instant> {
        self.stable_since
    }

    pub fn pending(&self) -> &PendingSignals {
        &self.pending
    }
}
