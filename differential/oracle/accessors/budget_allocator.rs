
impl BudgetAllocator {
    /// The writers, in the map's order.
    pub fn writers(&self) -> impl Iterator<Item = (WriterId, &WriterInfo)> {
        self.writers.iter().map(|(&id, info)| (id, info))
    }
}
