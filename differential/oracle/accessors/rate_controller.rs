
impl RateController {
    pub fn md_hard(&self) -> f32 {
        self.md_hard
    }

    pub fn md_soft(&self) -> f32 {
        self.md_soft
    }

    pub fn last_change(&self) -> Instant {
        self.last_change
    }
}
