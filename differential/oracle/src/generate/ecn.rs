//! The ECN processor: windows of 100 with no, one or some CE marks, and Not-ECT between them.

use crate::generate::times::at_call_limit;
use crate::generate::values::*;
use crate::operation::*;
use crate::random::Random;
use crate::script::Script;

const NOT_ECT: u64 = 0;
const ECT1: u64 = 1;
const ECT0: u64 = 2;
const CE: u64 = 3;

pub fn boundary(script: &mut Script) {
    // 99 ECT(0) and one CE signal
    script.call(ECN_NEW, &[]);
    packets(script, ECT0, 99);
    packets(script, CE, 1);
    // 100 without CE do not; Not-ECT in between counts in no window
    packets(script, ECT0, 49);
    packets(script, NOT_ECT, 2);
    packets(script, ECT1, 50);
    packets(script, NOT_ECT, 1);
    packets(script, ECT0, 1);
    // DSCP bits and wider words do not matter
    for tos in [0x02, 0xfc, 0xff, 0xb8 | ECT1, 0x100, 0x103, u64::MAX - 1] {
        script.call(PROCESS_TOS, &[tos]);
    }
    // at once, and in no window
    script.call(PROCESS_CE, &[]);
    at_limit(script);
    script.call(ECN_NEW, &[]);
    script.call(PROCESS_CE, &[]);
    packets(script, NOT_ECT, 2);
}

fn packets(script: &mut Script, codepoint: u64, count: u64) {
    for _ in 0..count {
        script.call(PROCESS_TOS, &[codepoint]);
    }
}

fn at_limit(script: &mut Script) {
    script.call(ECN_CALLS, &[CALL_LIMIT - 2]);
    script.call(PROCESS_TOS, &[CE]);
    script.call(PROCESS_CE, &[]);
    script.call(PROCESS_TOS, &[CE]);
    script.call(PROCESS_CE, &[]);
    script.call(ECN_CALLS, &[CALL_LIMIT + 1]);
    script.call(PROCESS_CE, &[]);
    script.call(ECN_CALLS, &[u64::MAX]);
    script.call(PROCESS_TOS, &[NOT_ECT]);
    script.call(ECN_CALLS, &[CALL_LIMIT - 1]);
    script.call(PROCESS_TOS, &[ECT1]);
    script.call(PROCESS_TOS, &[ECT1]);
}

/// What a peer sends and routers mark, in parts of 1000.
pub struct Traffic {
    not_ect: u64,
    ce: u64,
    ect1: u64,
}

impl Traffic {
    pub fn new(random: &mut Random) -> Self {
        Self {
            not_ect: random.pick(&[0, 50, 300, 950]),
            ce: random.pick(&[0, 3, 5, 10, 10, 15, 30, 300, 1000]),
            ect1: random.pick(&[0, 0, 100, 500, 1000]),
        }
    }

    fn codepoint(&self, random: &mut Random) -> u64 {
        if random.below(1000) < self.not_ect {
            NOT_ECT
        } else if random.below(1000) < self.ce {
            CE
        } else if random.below(1000) < self.ect1 {
            ECT1
        } else {
            ECT0
        }
    }

    fn call(&self, script: &mut Script, random: &mut Random) {
        if random.below(200) == 0 {
            script.call(PROCESS_CE, &[random.pick(&[0, u64::MAX])]);
            return;
        }
        let tos = self.tos(random);
        script.call(PROCESS_TOS, &[tos]);
    }

    pub fn tos(&self, random: &mut Random) -> u64 {
        let dscp = random.pick(&[0, 0, 0xb8, 0xfc]);
        let tos = self.codepoint(random) | dscp;
        widened(random, tos, 8)
    }
}

pub fn episode(script: &mut Script, random: &mut Random, length: u64) {
    if random.percent(30) {
        script.call(ECN_NEW, &[]);
    }
    let traffic = Traffic::new(random);
    // Long enough for a window or more.
    for _ in 0..3 * length {
        traffic.call(script, random);
    }
    if random.percent(20) {
        at_call_limit(script, random, ECN_CALLS, |script, random| {
            traffic.call(script, random)
        });
    }
}
