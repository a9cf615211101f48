//! Makes scripts. A suite is a fixed list of boundary cases, the same for every seed, and then random episodes.

use crate::random::Random;
use crate::script::Script;

mod allocator;
mod bucket;
mod coalescing;
mod config;
mod controller;
pub mod doors;
mod ecn;
mod numeric;
mod pacer;
mod peers;
mod queue;
mod rate;
mod records;
mod rtt;
mod scorer;
mod settings;
mod station;
pub mod tapes;
mod times;
mod values;

pub struct Suite {
    pub name: &'static str,
    boundary: fn(&mut Script),
    /// Adds some calls that belong together, about as many as the last argument says.
    episode: fn(&mut Script, &mut Random, u64),
}

pub static SUITES: [Suite; 14] = [
    Suite {
        name: "numeric",
        boundary: numeric::boundary,
        episode: numeric::episode,
    },
    Suite {
        name: "config",
        boundary: config::boundary,
        episode: config::episode,
    },
    Suite {
        name: "ecn",
        boundary: ecn::boundary,
        episode: ecn::episode,
    },
    Suite {
        name: "rtt",
        boundary: rtt::boundary,
        episode: rtt::episode,
    },
    Suite {
        name: "peers",
        boundary: peers::boundary,
        episode: peers::episode,
    },
    Suite {
        name: "bucket",
        boundary: bucket::boundary,
        episode: bucket::episode,
    },
    Suite {
        name: "coalescing",
        boundary: coalescing::boundary,
        episode: coalescing::episode,
    },
    Suite {
        name: "queue",
        boundary: queue::boundary,
        episode: queue::episode,
    },
    Suite {
        name: "pacer",
        boundary: pacer::boundary,
        episode: pacer::episode,
    },
    Suite {
        name: "rate",
        boundary: rate::boundary,
        episode: rate::episode,
    },
    Suite {
        name: "scorer",
        boundary: scorer::boundary,
        episode: scorer::episode,
    },
    Suite {
        name: "allocator",
        boundary: allocator::boundary,
        episode: allocator::episode,
    },
    Suite {
        name: "controller",
        boundary: controller::boundary,
        episode: controller::episode,
    },
    Suite {
        name: "station",
        boundary: station::boundary,
        episode: station::episode,
    },
];

/// A fixed list of calls that can be printed by its name; it stands among its suite's boundary cases too.
pub struct Case {
    pub name: &'static str,
    calls: fn(&mut Script),
}

pub static CASES: [Case; 14] = [
    Case {
        name: "accident",
        calls: pacer::accident,
    },
    Case {
        name: "rate-factor-one",
        calls: rate::factor_one,
    },
    Case {
        name: "scorer-eagain",
        calls: scorer::eagain,
    },
    Case {
        name: "scorer-inflated",
        calls: scorer::inflated,
    },
    Case {
        name: "three-of-p1",
        calls: allocator::three_of_p1,
    },
    Case {
        name: "eagain",
        calls: controller::eagain,
    },
    Case {
        name: "inflated",
        calls: controller::inflated,
    },
    Case {
        name: "factor-one",
        calls: controller::factor_one,
    },
    Case {
        name: "station-eagain",
        calls: station::eagain,
    },
    Case {
        name: "station-lengths",
        calls: station::lengths,
    },
    Case {
        name: "station-peers",
        calls: station::peers,
    },
    Case {
        name: "station-times",
        calls: station::times,
    },
    Case {
        name: "station-full-p0",
        calls: station::full_p0,
    },
    Case {
        name: "station-accident",
        calls: station::accident,
    },
];

/// The suite of that name.
pub fn suite(name: &str) -> Option<&'static Suite> {
    SUITES.iter().find(|suite| suite.name == name)
}

/// The calls of the case of that name.
pub fn case(name: &str) -> Option<Script> {
    let case = CASES.iter().find(|case| case.name == name)?;
    let mut script = Script::default();
    (case.calls)(&mut script);
    Some(script)
}

/// The name of a field of the settings (its number modulo 25), and whether it is a float.
pub fn config_field(number: u64) -> (&'static str, bool) {
    let field = number % config::FIELD_NAMES.len() as u64;
    (config::FIELD_NAMES[field as usize], config::is_float(field))
}

/// The suite's boundary cases and `calls` random ones.
pub fn generate(suite: &Suite, calls: usize, seed: u64) -> Script {
    let mut script = Script::default();
    (suite.boundary)(&mut script);
    let end = script.len() + calls;
    // Many episodes in a short script, some long ones in a long script.
    let longest = (calls as u64 / 50).clamp(30, 5000);
    let mut random = Random::new(seed, suite.name);
    while script.len() < end {
        let length = if random.percent(70) {
            random.between(10, 60)
        } else {
            random.between(20, longest)
        };
        (suite.episode)(&mut script, &mut random, length);
    }
    script.truncate(end);
    script
}
