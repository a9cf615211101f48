
impl RttEstimator {
    pub fn last_sample(&self) -> Option<Instant> {
        self.last_sample
    }
}
