//! The buffer of bytes: the key hash and instance keys over it, and the records that queues and pacers are given.

use crate::congestion::coalescing::InstanceKey;
use crate::line::Lines;
use crate::operation::*;
use crate::script::Record;

pub const BUFFER_BYTES: usize = 4096;

#[derive(Default)]
pub struct Bytes {
    bytes: Vec<u8>,
}

impl Bytes {
    pub fn play(&mut self, record: Record, lines: &mut Lines) {
        let [a, b, ..] = record.arguments;
        match record.operation {
            BYTES_EMPTY => {
                self.bytes.clear();
                lines.number(0u64);
            }
            BYTES_JOIN => {
                join(&mut self.bytes, record.arguments);
                lines.number(self.bytes.len() as u64);
            }
            HASH_BYTES => lines.number(hash_bytes(&self.bytes)),
            FROM_TOPIC_AND_KEY => key(&self.topic_and_key(a), lines),
            KEYLESS => key(&keyless(&self.bytes), lines),
            KEY_NEW => key(&InstanceKey::new(a, b), lines),
            HASH_IS => lines.number(hash_bytes(&self.bytes) == a),
            BYTES_PATTERN => {
                self.bytes = pattern(a, b);
                lines.number(self.bytes.len() as u64);
            }
            _ => {}
        }
    }

    pub fn bytes(&self) -> &[u8] {
        &self.bytes
    }

    fn topic_and_key(&self, topic_bytes: u64) -> InstanceKey {
        let cut = topic_bytes.min(self.bytes.len() as u64) as usize;
        let (topic, key) = self.bytes.split_at(cut);
        match std::str::from_utf8(topic) {
            Ok(topic) => InstanceKey::from_topic_and_key(topic, key),
            Err(_) => InstanceKey::new(hash_bytes(topic), hash_bytes(key)),
        }
    }
}

fn keyless(topic: &[u8]) -> InstanceKey {
    match std::str::from_utf8(topic) {
        Ok(topic) => InstanceKey::keyless(topic),
        Err(_) => InstanceKey::new(hash_bytes(topic), 0),
    }
}

/// The Rust's own hash of any bytes; it is private there and stands in a key.
pub fn hash_bytes(bytes: &[u8]) -> u64 {
    InstanceKey::from_topic_and_key("", bytes).key_hash()
}

/// The first `a` (at most 32) bytes of the words `b` to `e` join the buffer, as far as it goes.
pub fn join(buffer: &mut Vec<u8>, arguments: [u64; 5]) {
    let words = &arguments[1..];
    let count = (arguments[0].min(32) as usize).min(BUFFER_BYTES - buffer.len());
    let joined = words.iter().flat_map(|word| word.to_le_bytes());
    buffer.extend(joined.take(count));
}

/// `length` (at most 4,096) bytes that `number` decides.
pub fn pattern(length: u64, number: u64) -> Vec<u8> {
    let first = number % 65_536;
    let byte = |k| ((first + k) * 40_503 / 256) as u8;
    (0..length.min(BUFFER_BYTES as u64)).map(byte).collect()
}

fn key(key: &InstanceKey, lines: &mut Lines) {
    lines.numbers(&[key.topic_hash(), key.key_hash()]);
}
