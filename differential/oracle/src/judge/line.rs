//! Station lines and place lines in their parts.

use crate::operation::STATION_PLACE;

/// Places of a roster.
pub const PLACES: usize = 4;

/// Numbers of a station line and of a place line behind the operation's.
const STATION_NUMBERS: usize = 44;
const PLACE_NUMBERS: usize = 25;

/// The actions of a send attempt.
pub const SENT: u64 = 1;
pub const WAIT: u64 = 2;

/// What a line shows of a place: the bucket, P0's forced sends, and the digest of all.
#[derive(Clone, Copy, Default)]
pub struct Place {
    pub tokens: u64,
    pub capacity: u64,
    pub rate: u64,
    pub last_refill: u64,
    pub forced: u64,
    pub digest: u64,
}

impl Place {
    pub fn bucket(&self) -> [u64; 4] {
        [self.tokens, self.capacity, self.rate, self.last_refill]
    }
}

/// The parts that are judged.
pub struct StationLine {
    pub answer: u64,
    pub told: u64,
    pub action: u64,
    pub class: u64,
    pub sequence: u64,
    pub length: u64,
    pub wait: u64,
    pub bytes: u64,
    pub writers: u64,
    pub budgets: [u64; PLACES],
    pub places: [Place; PLACES],
    pub updates: u64,
    pub waiting_bytes: u64,
}

/// The numbers of a line behind its operation's; none where it is another's or has something else in it.
fn numbers(operation: u64, line: &str) -> Option<Vec<u64>> {
    let numbers: Option<Vec<u64>> = line.split(' ').map(|word| word.parse().ok()).collect();
    let numbers = numbers?;
    (numbers[0] == operation).then(|| numbers[1..].to_vec())
}

/// The numbers of a place line.
pub fn place_numbers(line: &str) -> Option<[u64; PLACE_NUMBERS]> {
    numbers(STATION_PLACE, line)?.try_into().ok()
}

impl StationLine {
    pub fn read(operation: u64, line: &str) -> Option<Self> {
        let shown: [u64; STATION_NUMBERS] = numbers(operation, line)?.try_into().ok()?;
        let [answer, told, action, class, sequence, length, wait, bytes, _, _, _, _, writers, rest @ ..] =
            shown;
        let (budgets, rest) = rest.split_at(PLACES);
        let (places, digests) = rest.split_at(6 * PLACES);
        let mut line = Self {
            answer,
            told,
            action,
            class,
            sequence,
            length,
            wait,
            bytes,
            writers,
            budgets: [0; PLACES],
            places: [Place::default(); PLACES],
            updates: digests[1],
            waiting_bytes: digests[2],
        };
        line.budgets.copy_from_slice(budgets);
        for (place, fields) in line.places.iter_mut().zip(places.chunks(6)) {
            *place = place_of(fields);
        }
        Some(line).filter(|line| line.class < 3)
    }
}

fn place_of(fields: &[u64]) -> Place {
    Place {
        tokens: fields[0],
        capacity: fields[1],
        rate: fields[2],
        last_refill: fields[3],
        forced: fields[4],
        digest: fields[5],
    }
}
