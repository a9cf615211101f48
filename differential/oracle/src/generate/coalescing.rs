//! The key hash: published vectors, topics and keys of many lengths.

use crate::operation::*;
use crate::play::coalescing::{hash_bytes, join, BUFFER_BYTES};
use crate::random::Random;
use crate::script::Script;

/// FNV-1a, 64 bits: vectors that its authors publish.
pub const PUBLISHED: [(&[u8], u64); 29] = [
    (b"", 0xcbf2_9ce4_8422_2325),
    (b"a", 0xaf63_dc4c_8601_ec8c),
    (b"b", 0xaf63_df4c_8601_f1a5),
    (b"c", 0xaf63_de4c_8601_eff2),
    (b"d", 0xaf63_d94c_8601_e773),
    (b"e", 0xaf63_d84c_8601_e5c0),
    (b"f", 0xaf63_db4c_8601_ead9),
    (b"fo", 0x0898_5907_b541_d342),
    (b"foo", 0xdcb2_7518_fed9_d577),
    (b"foob", 0xdd12_0e79_0c25_12af),
    (b"fooba", 0xcac1_65af_a2fe_f40a),
    (b"foobar", 0x8594_4171_f739_67e8),
    (b"\0", 0xaf63_bd4c_8601_b7df),
    (b"a\0", 0x089b_e207_b544_f1e4),
    (b"b\0", 0x08a6_1407_b54d_9b5f),
    (b"c\0", 0x08a2_ae07_b54a_b836),
    (b"d\0", 0x0891_b007_b53c_4869),
    (b"e\0", 0x088e_4a07_b539_6540),
    (b"f\0", 0x0898_7c07_b542_0ebb),
    (b"fo\0", 0xdcb2_8a18_fed9_f926),
    (b"foo\0", 0xdd12_7079_0c25_b935),
    (b"foob\0", 0xcac1_46af_a2fe_bf5d),
    (b"fooba\0", 0x8593_d371_f738_acfe),
    (b"foobar\0", 0x3453_1ca7_168b_8f38),
    (b"ch", 0x08a2_5607_b54a_22ae),
    (b"cho", 0xf5fa_f019_0cf9_0df3),
    (b"chongo", 0xe150_688c_8217_b8fd),
    (b"chongo was here!", 0x858e_2fa3_2a55_e61d),
    (b"chongo was here!\n", 0x4681_0940_eff5_f915),
];

pub fn boundary(script: &mut Script) {
    for (bytes, hash) in PUBLISHED {
        put(script, bytes);
        script.call(HASH_IS, &[hash]);
    }
    nothing(script);
    topics(script);
    joins(script);
    full_buffer(script);
}

/// The byte buffer becomes `bytes`, at most 32 of them.
fn put(script: &mut Script, bytes: &[u8]) {
    script.call(BYTES_EMPTY, &[]);
    if !bytes.is_empty() {
        script.call(BYTES_JOIN, &joined(bytes.len() as u64, bytes));
    }
}

/// The arguments that join the first `count` of at most 32 bytes.
fn joined(count: u64, bytes: &[u8]) -> [u64; 5] {
    let mut arguments = [count, 0, 0, 0, 0];
    for (i, &byte) in bytes.iter().enumerate() {
        arguments[1 + i / 8] |= u64::from(byte) << (8 * (i % 8));
    }
    arguments
}

fn nothing(script: &mut Script) {
    script.call(BYTES_EMPTY, &[u64::MAX]);
    script.call(HASH_BYTES, &[]);
    script.call(KEYLESS, &[]);
    for topic in [0, 1, u64::MAX] {
        script.call(FROM_TOPIC_AND_KEY, &[topic]);
    }
    for (topic, key) in [(0, 0), (1, u64::MAX), (u64::MAX, 1)] {
        script.call(KEY_NEW, &[topic, key]);
    }
}

fn topics(script: &mut Script) {
    put(script, b"default");
    script.call(KEYLESS, &[]);
    put(script, b"sensors/temperature\0\x01\xfe\xff");
    for topic in [0, 1, 18, 19, 20, 21] {
        script.call(FROM_TOPIC_AND_KEY, &[topic]);
    }
    put(script, b"sensors/temperature/7");
    for topic in [0, 19, 20, 21, 22, 1 << 32, u64::MAX] {
        script.call(FROM_TOPIC_AND_KEY, &[topic]);
    }
    script.call(KEYLESS, &[]);
    script.call(HASH_BYTES, &[]);
}

/// Every byte value, and counts beyond 32.
fn joins(script: &mut Script) {
    script.call(BYTES_EMPTY, &[]);
    for first in (0..=255u8).step_by(32) {
        let bytes: Vec<u8> = (first..=first + 31).collect();
        script.call(BYTES_JOIN, &joined(32, &bytes));
        script.call(HASH_BYTES, &[]);
    }
    for count in [0, 1, 7, 8, 9, 31, 33, 1 << 32, u64::MAX] {
        script.call(
            BYTES_JOIN,
            &[count, u64::MAX, 1, 1 << 63, 0x0102_0304_0506_0708],
        );
    }
    script.call(HASH_BYTES, &[]);
}

/// The buffer ends within a join.
fn full_buffer(script: &mut Script) {
    script.call(BYTES_EMPTY, &[]);
    script.call(BYTES_JOIN, &joined(27, b"twenty-seven bytes to start"));
    for i in 0..BUFFER_BYTES as u64 / 32 + 1 {
        script.call(BYTES_JOIN, &[32, i, i, i, i]);
    }
    script.call(HASH_BYTES, &[]);
    script.call(FROM_TOPIC_AND_KEY, &[4095]);
    script.call(KEYLESS, &[]);
}

/// A buffer is filled bit by bit and hashed in between. What is taken for a topic is ASCII.
pub fn episode(script: &mut Script, random: &mut Random, length: u64) {
    let mut buffer = Vec::new();
    script.call(BYTES_EMPTY, &[]);
    // Where the bytes of a key begin.
    let text_bytes = random.pick(&[0, 1, 10, 40, 200, BUFFER_BYTES]);
    let emptied = random.pick(&[0, 3, 20, 20, 20, 40]);
    for _ in 0..length {
        if random.percent(emptied) {
            buffer.clear();
            script.call(BYTES_EMPTY, &[]);
        } else if random.percent(40) {
            add(script, random, &mut buffer, text_bytes);
        }
        read(script, random, &buffer);
    }
}

fn add(script: &mut Script, random: &mut Random, buffer: &mut Vec<u8>, text_bytes: usize) {
    let bytes: Vec<u8> = (0..32)
        .map(|i| byte(random, buffer.len() + i < text_bytes))
        .collect();
    let count = match random.below(8) {
        0 => random.pick(&[0, 33, 1 << 32, u64::MAX]),
        1..=3 => random.below(33),
        _ => 32,
    };
    let arguments = joined(count, &bytes);
    join(buffer, arguments);
    script.call(BYTES_JOIN, &arguments);
}

fn byte(random: &mut Random, text: bool) -> u8 {
    match random.below(8) {
        _ if text => random.between(0x20, 0x7e) as u8,
        0 => 0,
        1 => 0xff,
        _ => random.below(256) as u8,
    }
}

fn read(script: &mut Script, random: &mut Random, buffer: &[u8]) {
    let ascii = buffer.iter().take_while(|byte| byte.is_ascii()).count() as u64;
    let all_ascii = ascii == buffer.len() as u64;
    match random.below(10) {
        0..=4 => script.call(HASH_BYTES, &[]),
        5 if all_ascii => script.call(KEYLESS, &[]),
        6 if all_ascii => script.call(FROM_TOPIC_AND_KEY, &[ascii + random.of_bits(40)]),
        5..=7 => script.call(FROM_TOPIC_AND_KEY, &[random.below(ascii + 1)]),
        8 => script.call(HASH_IS, &[expected(random, buffer)]),
        _ => script.call(KEY_NEW, &[random.word(), random.of_bits(64)]),
    }
}

/// The true hash, or one that is a bit off.
fn expected(random: &mut Random, buffer: &[u8]) -> u64 {
    let hash = hash_bytes(buffer);
    if random.percent(50) {
        hash
    } else {
        hash ^ 1 << random.below(64)
    }
}
