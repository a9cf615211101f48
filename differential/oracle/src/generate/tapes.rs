//! Makes tapes of many kinds. A kind's tapes come one after another from its own random numbers, so that a longer run
//! of the same seed begins with the tapes of a shorter one.

use crate::random::Random;
use crate::tape::many::Tape;

mod cases;
mod damage;
mod draft;
mod edges;
mod every;
mod long;
mod queues;
mod signals;
mod traffic;
mod waits;

pub struct Kind {
    pub name: &'static str,
    /// Its part of a run, beside the other kinds' shares.
    share: usize,
    make: Make,
}

/// How a kind's tapes are made.
enum Make {
    /// All of them, however short the run is.
    All(fn() -> Vec<Vec<u8>>),
    /// The first so many, the same for every seed.
    First(fn(usize) -> Vec<Vec<u8>>),
    /// So many that belong together.
    Row(fn(&mut Random, usize) -> Vec<Vec<u8>>),
    /// One for itself.
    Each(fn(&mut Random) -> Vec<u8>),
}

impl Make {
    fn tapes(&self, random: &mut Random, count: usize) -> Vec<Vec<u8>> {
        match self {
            Make::All(make) => make(),
            Make::First(make) => make(count),
            Make::Row(make) => make(random, count),
            Make::Each(make) => (0..count).map(|_| make(random)).collect(),
        }
    }
}

const fn kind(name: &'static str, share: usize, make: Make) -> Kind {
    Kind { name, share, make }
}

pub static KINDS: [Kind; 19] = [
    kind("cases", 5, Make::All(cases::cases)),
    kind("words", 160, Make::First(every::words)),
    kind("items", 130, Make::First(every::items)),
    kind("cut", 140, Make::Row(damage::cut)),
    kind("valid", 150, Make::Each(traffic::valid)),
    kind("damaged", 120, Make::Each(damage::damaged)),
    kind("unknown", 30, Make::Each(damage::unknown)),
    kind("noise", 20, Make::Each(damage::noise)),
    kind("writers", 30, Make::Each(edges::writers)),
    kind("peers", 10, Make::Each(edges::peers)),
    kind("samples", 30, Make::Each(edges::samples)),
    kind("lengths", 25, Make::Each(edges::lengths)),
    kind("rates", 25, Make::Each(edges::rates)),
    kind("clock", 15, Make::Each(edges::clock)),
    kind("storms", 50, Make::Each(signals::storms)),
    kind("queues", 40, Make::Each(queues::queues)),
    kind("keys", 30, Make::Each(queues::keys)),
    kind("waits", 50, Make::Each(waits::waits)),
    kind("long", 5, Make::Each(long::long)),
];

/// The kind of that name, by its place.
pub fn find(name: &str) -> Option<usize> {
    KINDS.iter().position(|kind| kind.name == name)
}

/// About `count` tapes of these kinds, by their shares.
pub fn generate(kinds: &[usize], count: usize, seed: u64) -> Vec<Tape> {
    let shares: usize = kinds.iter().map(|&kind| KINDS[kind].share).sum();
    let mut tapes = Vec::new();
    let mut given = 0;
    for &place in kinds {
        let kind = &KINDS[place];
        given += kind.share;
        // What a kind before it left over is made up for here.
        let wanted = (count * given / shares).saturating_sub(tapes.len());
        let mut random = Random::new(seed, kind.name);
        let made = kind.make.tapes(&mut random, wanted);
        tapes.extend(made.into_iter().map(|bytes| Tape { kind: place, bytes }));
    }
    tapes
}
