//! The numbers by which a call is turned down (document 01), and what a module keeps for them.

pub const ACCEPTED: u64 = 0;
pub const VALIDATE: u64 = 1;
pub const SETTINGS: u64 = 2;
/// A record that is too long.
pub const LENGTH: u64 = 3;
pub const RTT: u64 = 4;
/// A writer's weight; it shares the number of an RTT sample.
pub const WEIGHT: u64 = 4;
/// An unknown class or word kind, or a tape that breaks off.
pub const TAPE: u64 = 5;
/// A rate, a bucket's capacity or a byte count.
pub const RATE: u64 = 6;
pub const TIME: u64 = 7;
/// A lent buffer that is too short.
pub const BUFFER: u64 = 8;
pub const EARLIER: u64 = 11;
pub const P0_FULL: u64 = 12;
pub const DISABLED: u64 = 13;
pub const FULL: u64 = 14;
/// A writer that is not registered.
pub const NO_WRITER: u64 = 15;
/// An id that is in the station already.
pub const KNOWN_ID: u64 = 16;
pub const CALLS: u64 = 17;

pub const MAX_TIME: u64 = 1 << 62;
pub const MAX_CALLS: u64 = 1 << 40;
pub const MAX_RATE: u64 = 1_000_000_000;
pub const MAX_RTT_MS: f32 = 1_000_000.0;
pub const MAX_PEERS: usize = 64;
pub const MAX_WRITERS: usize = 64;
pub const MAX_WEIGHT: f32 = 1_000_000.0;

/// The number of the first check that applies, 0 where none does. Callers list input numbers in their order,
/// then state numbers in document 01's: 17, 11, 13, 15, 16, 14, 12.
pub fn first(checks: &[(bool, u64)]) -> u64 {
    checks
        .iter()
        .find(|(applies, _)| *applies)
        .map_or(ACCEPTED, |&(_, number)| number)
}

/// Outside 0 to 1,000,000 ms, or NaN. -0.0 is 0.
pub fn rtt_beyond(ms: f32) -> bool {
    !(0.0..=MAX_RTT_MS).contains(&ms)
}

/// Not finite, or above 1,000,000.
pub fn weight_beyond(weight: f32) -> bool {
    !weight.is_finite() || weight > MAX_WEIGHT
}

/// A module's own count of accepted calls and its last time.
#[derive(Clone, Copy, Default)]
pub struct Ledger {
    pub calls: u64,
    pub last: u64,
}

impl Ledger {
    /// Of a module that has just been made at a time.
    pub fn new(time: u64) -> Self {
        Self {
            calls: 0,
            last: time,
        }
    }

    pub fn used_up(&self) -> bool {
        self.calls >= MAX_CALLS
    }

    pub fn before_last(&self, time: u64) -> bool {
        time < self.last
    }

    /// Counts an accepted call that takes no time.
    pub fn count(&mut self) {
        self.calls = self.calls.saturating_add(1);
    }

    /// Counts an accepted call at a time.
    pub fn count_at(&mut self, time: u64) {
        self.count();
        self.last = time;
    }
}
