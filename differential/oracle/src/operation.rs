//! The operations of a script by name (differential/README.md).

pub const F32_OF_U32: u64 = 16;
pub const F64_OF_U64: u64 = 17;
pub const U32_OF_F32: u64 = 18;
pub const U64_OF_F64: u64 = 19;
pub const MAX_F32: u64 = 20;
pub const CLAMP_F32: u64 = 21;
pub const ABS_F32: u64 = 22;
pub const AS_SECS_F64: u64 = 23;
pub const FROM_SECS_F64: u64 = 24;
pub const WRAPPING_MUL: u64 = 25;

pub const CONFIG_NEW: u64 = 32;
pub const CONFIG_SET: u64 = 33;
pub const CONFIG_CHECK: u64 = 34;

pub const ECN_NEW: u64 = 48;
pub const PROCESS_TOS: u64 = 49;
pub const PROCESS_CE: u64 = 50;
pub const ECN_CALLS: u64 = 51;

pub const RTT_NEW: u64 = 64;
pub const RTT_UPDATE: u64 = 65;
pub const RTT_CALLS: u64 = 66;
pub const RTT_UPDATE_LENT: u64 = 67;

pub const PEERS_NEW: u64 = 80;
pub const PEERS_UPDATE: u64 = 81;
pub const PEERS_CALLS: u64 = 82;
pub const PEERS_SHOW: u64 = 83;

pub const BUCKET_NEW: u64 = 96;
pub const REFILL: u64 = 97;
pub const TRY_CONSUME: u64 = 98;
pub const FORCE_CONSUME: u64 = 99;
pub const SET_RATE: u64 = 100;
pub const SET_CAPACITY: u64 = 101;
pub const TIME_UNTIL_AVAILABLE: u64 = 102;
pub const BUCKET_CALLS: u64 = 103;

pub const BYTES_EMPTY: u64 = 112;
pub const BYTES_JOIN: u64 = 113;
pub const HASH_BYTES: u64 = 114;
pub const FROM_TOPIC_AND_KEY: u64 = 115;
pub const KEYLESS: u64 = 116;
pub const KEY_NEW: u64 = 117;
pub const HASH_IS: u64 = 118;
pub const BYTES_PATTERN: u64 = 119;
pub const POOL_FILL: u64 = 120;
pub const POOL_SHOW: u64 = 121;
pub const POOL_LEND: u64 = 122;

pub const QUEUE_NEW: u64 = 128;
pub const QUEUE_INSERT: u64 = 129;
pub const QUEUE_POP: u64 = 130;
pub const QUEUE_PEEK: u64 = 131;
pub const QUEUE_CALLS: u64 = 132;

pub const PACER_NEW: u64 = 144;
pub const PACER_ENQUEUE: u64 = 145;
pub const PACER_ENQUEUE_KEYED: u64 = 146;
pub const PACER_TRY_SEND: u64 = 147;
pub const PACER_SET_RATE: u64 = 148;
pub const PACER_CALLS: u64 = 149;

pub const RATE_NEW: u64 = 160;
pub const RATE_APPLY: u64 = 161;
pub const RATE_SET: u64 = 162;
pub const RATE_CALLS: u64 = 163;

pub const SCORER_NEW: u64 = 176;
pub const SCORER_EAGAIN: u64 = 177;
pub const SCORER_RTT: u64 = 178;
pub const SCORER_NACK: u64 = 179;
pub const SCORER_LOSS: u64 = 180;
pub const SCORER_TICK: u64 = 181;
pub const SCORER_CALLS: u64 = 182;

pub const ALLOCATOR_NEW: u64 = 192;
pub const ALLOCATOR_REGISTER: u64 = 193;
pub const ALLOCATOR_REGISTER_WEIGHTED: u64 = 194;
pub const ALLOCATOR_UNREGISTER: u64 = 195;
pub const ALLOCATOR_REALLOCATE: u64 = 196;
pub const ALLOCATOR_CALLS: u64 = 197;
pub const ALLOCATOR_SHOW: u64 = 198;

pub const CONTROLLER_NEW: u64 = 208;
pub const CONTROLLER_REGISTER: u64 = 209;
pub const CONTROLLER_TICK: u64 = 210;
pub const CONTROLLER_EAGAIN: u64 = 211;
pub const CONTROLLER_RTT: u64 = 212;
pub const CONTROLLER_NACKS: u64 = 213;
pub const CONTROLLER_TOS: u64 = 214;
pub const CONTROLLER_CE: u64 = 215;
pub const CONTROLLER_SET_RATE: u64 = 216;
pub const CONTROLLER_CALLS: u64 = 217;

pub const STATION_NEW: u64 = 224;
pub const STATION_REGISTER: u64 = 225;
pub const STATION_EAGAIN: u64 = 226;
pub const STATION_TOS: u64 = 227;
pub const STATION_NACKS: u64 = 228;
pub const STATION_RTT: u64 = 229;
pub const STATION_TICK: u64 = 230;
pub const STATION_SET_RATE: u64 = 231;
pub const STATION_HAND_IN: u64 = 232;
pub const STATION_SEND: u64 = 233;
pub const STATION_CALLS: u64 = 234;
pub const STATION_PLACE: u64 = 235;
pub const STATION_CONTROLLER: u64 = 236;
