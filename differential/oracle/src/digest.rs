//! The digest that a line has where a state is too long to show.

/// The digest of nothing.
pub const START: u64 = 14_695_981_039_346_656_037;
const PRIME: u64 = 1_099_511_628_211;

/// The digest with one value more.
pub fn joined(digest: u64, value: u64) -> u64 {
    (digest ^ value).wrapping_mul(PRIME)
}

pub fn of_bytes(bytes: &[u8]) -> u64 {
    bytes
        .iter()
        .fold(START, |digest, &byte| joined(digest, byte.into()))
}

pub fn of(values: &[u64]) -> u64 {
    values
        .iter()
        .fold(START, |digest, &value| joined(digest, value))
}
