
impl TokenBucket {
    pub fn last_refill(&self) -> Instant {
        self.last_refill
    }
}
