
impl InstanceKey {
    pub fn topic_hash(&self) -> u64 {
        self.topic_hash
    }

    pub fn key_hash(&self) -> u64 {
        self.key_hash
    }
}

impl CoalescingQueue {
    pub fn next_sequence(&self) -> u64 {
        self.next_sequence
    }

    /// What waits, from the head.
    pub fn waiting(&self) -> impl Iterator<Item = &CoalescedSample> {
        self.order.iter().map(|key| &self.map[key])
    }
}
