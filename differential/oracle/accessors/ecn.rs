
impl EcnProcessor {
    pub fn ce_in_window(&self) -> u32 {
        self.ce_in_window
    }

    pub fn packets_in_window(&self) -> u32 {
        self.packets_in_window
    }
}
