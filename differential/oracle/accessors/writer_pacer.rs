
impl WriterPacer {
    pub fn bucket(&self) -> &TokenBucket {
        &self.tokens
    }

    /// What waits in P0, from the head.
    pub fn waiting_p0(&self) -> &VecDeque<PendingSample> {
        &self.queue_p0
    }

    /// What waits in P1, from the head.
    pub fn waiting_p1(&self) -> &VecDeque<PendingSample> {
        &self.queue_p1
    }

    pub fn p2(&self) -> &CoalescingQueue {
        &self.queue_p2
    }

    pub fn next_sequence(&self) -> u64 {
        self.next_sequence
    }
}
