//! The byte allowance: from each setting of a pacer's rate to any send attempt before the next.

use super::line::Place;

const BILLION: u128 = 1_000_000_000;

/// What a pacer did since its rate was set.
#[derive(Clone, Copy)]
pub struct Span {
    tokens: u64,
    rate: u64,
    last_refill: u64,
    /// Bytes of P1 and P2 sent.
    paid: u64,
    refills: u64,
}

impl Span {
    /// The bucket as the setting left it.
    pub fn from(bucket: Place) -> Self {
        Self {
            tokens: bucket.tokens,
            rate: bucket.rate,
            last_refill: bucket.last_refill,
            paid: 0,
            refills: 0,
        }
    }

    pub fn pay(&mut self, class: u64, length: u64) {
        if class > 0 {
            self.paid += length;
        }
    }

    /// A credit above 0 moves the refill time, and nothing else does.
    pub fn refill(&mut self, before: Place, after: Place) {
        self.refills += u64::from(before.last_refill != after.last_refill);
    }

    /// No more than the tokens held, the rate times the time since the refill time, and a byte for each refill.
    pub fn check(&self, time: u64) -> Result<(), String> {
        let elapsed = u128::from(time.saturating_sub(self.last_refill));
        let held = u128::from(self.tokens + self.refills) * BILLION;
        if u128::from(self.paid) * BILLION <= held + u128::from(self.rate) * elapsed {
            return Ok(());
        }
        Err(format!(
            "{} bytes sent, beyond {} tokens, {} bytes/s for {elapsed} ns and {} refills",
            self.paid, self.tokens, self.rate, self.refills
        ))
    }
}
