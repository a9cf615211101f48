//! Scripts as text, one call a line.

use std::io::{self, BufRead, Read, Write};

use crate::generate::config_field;
use crate::operation::*;
use crate::play;
use crate::script::{read_record, Record, Script};

/// Each record of `script`: its index and the call.
pub fn show(mut script: impl Read, mut output: impl Write) -> io::Result<()> {
    let mut index = 0u64;
    while let Some(record) = read_record(&mut script)? {
        writeln!(output, "{index}: {}", text(&record))?;
        index += 1;
    }
    output.flush()
}

/// Each call of `script` and, below it, the Rust's answer.
pub fn show_answered(script: &Script, mut output: impl Write) -> io::Result<()> {
    let (mut records, mut lines) = (Vec::new(), Vec::new());
    script.write(&mut records)?;
    play::play(&records[..], &mut lines)?;
    let mut records = &records[..];
    for line in lines.lines() {
        let record = read_record(&mut records)?.expect("a line answers a record");
        writeln!(output, "{}\n    {}", text(&record), line?)?;
    }
    output.flush()
}

/// A call in words.
pub fn text(record: &Record) -> String {
    let [a, b, c, ..] = record.arguments;
    match record.operation {
        F32_OF_U32..=WRAPPING_MUL => numeric(record),
        CONFIG_NEW if a & 1 == 1 => "disabled settings".into(),
        CONFIG_NEW => "default settings".into(),
        CONFIG_SET => config_set(a, b),
        CONFIG_CHECK => "the settings are checked".into(),
        ECN_NEW => "a new ECN processor".into(),
        PROCESS_TOS => format!("process_tos({a:#04x})"),
        PROCESS_CE => "process_ce()".into(),
        ECN_CALLS => format!("the ECN processor's call count becomes {a}"),
        RTT_NEW => format!("a new RTT estimator, default {}", f32_text(a)),
        RTT_UPDATE => format!("update at time {a} with sample {}", f32_text(b)),
        RTT_UPDATE_LENT => format!("update at time {a} with sample {}, lent", f32_text(b)),
        RTT_CALLS => format!("the RTT estimator's call count becomes {a}"),
        PEERS_NEW => format!("a new tracker of peers, default {}", f32_text(a)),
        PEERS_UPDATE => format!(
            "update at time {a} for peer {b} with sample {}",
            f32_text(c)
        ),
        PEERS_CALLS => format!("the tracker's call count becomes {a}"),
        PEERS_SHOW => format!("place {a} of the tracker is shown"),
        BUCKET_NEW => format!("a new bucket at time {a}: rate {b}, capacity {c}"),
        REFILL => format!("refill at time {a}"),
        TRY_CONSUME => format!("try_consume at time {a} of {b} bytes"),
        FORCE_CONSUME => format!("force_consume at time {a} of {b} bytes"),
        SET_RATE => format!("set_rate at time {a} to {b}"),
        SET_CAPACITY => format!("set_capacity to {a}"),
        TIME_UNTIL_AVAILABLE => format!("time_until_available at time {a} for {b} bytes"),
        BUCKET_CALLS => format!("the bucket's call count becomes {a}"),
        BYTES_EMPTY => "the byte buffer is emptied".into(),
        BYTES_JOIN => bytes_join(record),
        HASH_BYTES => "hash_bytes of the byte buffer".into(),
        FROM_TOPIC_AND_KEY => {
            format!("from_topic_and_key, the topic being the buffer's first {a} bytes")
        }
        KEYLESS => "keyless of the byte buffer".into(),
        KEY_NEW => format!("InstanceKey::new({a:#018x}, {b:#018x})"),
        HASH_IS => format!("is hash_bytes of the byte buffer {a:#018x}?"),
        BYTES_PATTERN => format!("the byte buffer becomes {a} bytes of pattern {b}"),
        POOL_FILL => format!("every byte of the pool becomes {}, {a} are lent", b as u8),
        POOL_SHOW => "the lent part of the pool is shown".into(),
        POOL_LEND => format!("{a} bytes of the pool are lent"),
        QUEUE_NEW..=QUEUE_CALLS => queue(record),
        PACER_NEW..=PACER_CALLS => pacer(record),
        RATE_NEW..=RATE_CALLS => rate(record),
        SCORER_NEW..=SCORER_CALLS => scorer(record),
        ALLOCATOR_NEW..=ALLOCATOR_SHOW => allocator(record),
        CONTROLLER_NEW..=CONTROLLER_CALLS => controller(record),
        STATION_NEW..=STATION_CONTROLLER => station(record),
        unknown => format!("unknown operation {unknown} {:?}", record.arguments),
    }
}

fn numeric(record: &Record) -> String {
    let [a, b, c, ..] = record.arguments;
    match record.operation {
        F32_OF_U32 => format!("f32_of_u32({a})"),
        F64_OF_U64 => format!("f64_of_u64({a})"),
        U32_OF_F32 => format!("u32_of_f32({})", f32_text(a)),
        U64_OF_F64 => format!("u64_of_f64({})", f64_text(a)),
        MAX_F32 => format!("max_f32({}, {})", f32_text(a), f32_text(b)),
        CLAMP_F32 => format!(
            "clamp_f32({}, {}, {})",
            f32_text(a),
            f32_text(b),
            f32_text(c)
        ),
        ABS_F32 => format!("abs_f32({})", f32_text(a)),
        AS_SECS_F64 => format!("as_secs_f64({a} ns)"),
        FROM_SECS_F64 => format!("from_secs_f64({})", f64_text(a)),
        _ => format!("wrapping_mul({a}, {b})"),
    }
}

fn queue(record: &Record) -> String {
    let [a, b, ..] = record.arguments;
    match record.operation {
        QUEUE_NEW => format!("a new queue of limit {a}"),
        QUEUE_INSERT => format!("insert under the key {a:#018x}, {b:#018x}"),
        QUEUE_POP => "pop_front()".into(),
        QUEUE_PEEK => "peek_front()".into(),
        _ => format!("the queue's call count becomes {a}"),
    }
}

fn pacer(record: &Record) -> String {
    let [a, b, c, ..] = record.arguments;
    match record.operation {
        PACER_NEW => format!("a new pacer at time {a}, initial rate {b}"),
        PACER_ENQUEUE => format!("enqueue at time {a} in P{}", b % 3),
        PACER_ENQUEUE_KEYED => {
            format!("enqueue_p2_keyed at time {a} under the key {b:#018x}, {c:#018x}")
        }
        PACER_TRY_SEND => format!("try_send at time {a}"),
        PACER_SET_RATE => format!("the pacer's set_rate at time {a} to {b}"),
        _ => format!("the pacer's call count becomes {a}"),
    }
}

fn rate(record: &Record) -> String {
    let [a, b, c, d, _] = record.arguments;
    let (low, high) = (u64::from(u32::MAX), 32);
    match record.operation {
        RATE_NEW => format!(
            "a new rate controller at time {a}: initial {}, least {}, largest {}, step {}, factors {} hard and {} soft",
            b & low,
            b >> high,
            c & low,
            c >> high,
            f32_text(d & low),
            f32_text(d >> high)
        ),
        RATE_APPLY => {
            let action = ["none", "an increase", "a soft decrease", "a hard decrease"];
            format!("apply_action at time {a}: {}", action[b as usize % 4])
        }
        RATE_SET => format!("the rate controller's set_rate at time {a} to {b}"),
        _ => format!("the rate controller's call count becomes {a}"),
    }
}

fn scorer(record: &Record) -> String {
    let a = record.arguments[0];
    match record.operation {
        SCORER_NEW => format!("a new scorer at time {a}"),
        SCORER_EAGAIN => "the scorer's on_eagain()".into(),
        SCORER_RTT => "the scorer's on_rtt_inflated()".into(),
        SCORER_NACK => "the scorer's on_nack()".into(),
        SCORER_LOSS => "the scorer's on_loss()".into(),
        SCORER_TICK => format!("the scorer's tick at time {a}"),
        _ => format!("the scorer's call count becomes {a}"),
    }
}

fn allocator(record: &Record) -> String {
    let [a, b, c, ..] = record.arguments;
    match record.operation {
        ALLOCATOR_NEW => "a new allocator".into(),
        ALLOCATOR_REGISTER => format!("register of id {a} in P{}", b % 3),
        ALLOCATOR_REGISTER_WEIGHTED => format!(
            "register_weighted of id {a} in P{} with weight {}",
            b % 3,
            f32_text(c)
        ),
        ALLOCATOR_UNREGISTER => format!("unregister of id {a}"),
        ALLOCATOR_REALLOCATE => format!("reallocate to rate {a}"),
        ALLOCATOR_CALLS => format!("the allocator's call count becomes {a}"),
        _ => format!("place {a} of the allocator is shown"),
    }
}

fn controller(record: &Record) -> String {
    let [a, b, c, ..] = record.arguments;
    match record.operation {
        CONTROLLER_NEW => format!("a new controller at time {a}"),
        CONTROLLER_REGISTER => format!("register_writer of id {a} in P{}", b % 3),
        CONTROLLER_TICK => format!("the controller's tick at time {a}"),
        CONTROLLER_EAGAIN => "the controller's on_eagain()".into(),
        CONTROLLER_RTT => format!(
            "on_rtt_sample at time {a} for peer {b} with sample {}",
            f32_text(c)
        ),
        CONTROLLER_NACKS => format!("on_nacks({a})"),
        CONTROLLER_TOS => format!("on_ecn_tos({a:#04x})"),
        CONTROLLER_CE => "on_ecn_ce()".into(),
        CONTROLLER_SET_RATE => format!("the controller's set_rate at time {a} to {b}"),
        _ => format!("the controller's call count becomes {a}"),
    }
}

fn station(record: &Record) -> String {
    let [a, b, c, d, e] = record.arguments;
    match record.operation {
        STATION_NEW => format!("a new station at time {a}"),
        STATION_REGISTER => format!("the station at time {a}: register of id {b} in P{}", c % 3),
        STATION_EAGAIN => format!("the station at time {a}: EAGAIN"),
        STATION_TOS => format!("the station at time {a}: TOS byte {b:#04x}"),
        STATION_NACKS => format!("the station at time {a}: {b} NACKs"),
        STATION_RTT => format!(
            "the station at time {a}: RTT of peer {b}, sample {}",
            f32_text(c)
        ),
        STATION_TICK => format!("the station at time {a}: tick"),
        STATION_SET_RATE => format!("the station at time {a}: set rate to {b}"),
        STATION_HAND_IN => format!(
            "the station at time {a}: hand-in to pacer {} in P{}, key {d:#018x}, {e:#018x}",
            b as u8,
            c % 3
        ),
        STATION_SEND => format!("the station at time {a}: send attempt of pacer {}", b as u8),
        STATION_CALLS => format!("the station's call count becomes {a}"),
        STATION_PLACE => format!("pacer {} of the station is shown", a % 4),
        _ => "the station's controller is shown".into(),
    }
}

fn config_set(field: u64, value: u64) -> String {
    let (name, is_float) = config_field(field);
    let value = if is_float {
        f32_text(value)
    } else {
        value.to_string()
    };
    format!("field {field} of the settings, {name}, becomes {value}")
}

fn bytes_join(record: &Record) -> String {
    let count = record.arguments[0];
    let words = record.arguments[1..].iter();
    let bytes: Vec<u8> = words
        .flat_map(|word| word.to_le_bytes())
        .take(count.min(32) as usize)
        .collect();
    format!(
        "{count} bytes join the byte buffer: \"{}\"",
        bytes.escape_ascii()
    )
}

fn f32_text(word: u64) -> String {
    let wider = if word > u32::MAX.into() {
        ", wider"
    } else {
        ""
    };
    let bits = word as u32;
    format!("{:?} ({bits:#010x}{wider})", f32::from_bits(bits))
}

fn f64_text(bits: u64) -> String {
    format!("{:?} ({bits:#018x})", f64::from_bits(bits))
}
