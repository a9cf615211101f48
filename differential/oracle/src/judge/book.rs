//! The book of document 01: what became of each accepted record, by the calls' arguments, the answers and the class of
//! each `sent`.

use std::collections::VecDeque;
use std::fmt;

use crate::digest;

const P2: usize = 2;

/// A hand-in that was accepted.
pub struct Handed<'a> {
    pub class: usize,
    pub key: (u64, u64),
    pub bytes: &'a [u8],
}

/// A record of the book.
#[derive(Clone, Copy)]
pub struct Listed {
    pub sequence: u64,
    pub length: u64,
    key: (u64, u64),
    bytes: u64,
}

impl Listed {
    /// Sequence, length and the digest of its bytes, as `sent` shows them.
    pub fn shown(&self) -> [u64; 3] {
        [self.sequence, self.length, self.bytes]
    }
}

impl fmt::Display for Listed {
    fn fmt(&self, f: &mut fmt::Formatter) -> fmt::Result {
        let [sequence, length, bytes] = self.shown();
        write!(f, "number {sequence}, {length} bytes with digest {bytes}")
    }
}

/// The records of one class of one pacer: those that wait, and how many came to another end.
#[derive(Default)]
struct Queue {
    limit: usize,
    waiting: VecDeque<Listed>,
    accepted: u64,
    sent: u64,
    pushed_out: u64,
    replaced: u64,
}

impl Queue {
    /// It joins the tail; joining a full list pushes out the first.
    fn join(&mut self, record: Listed) {
        self.accepted += 1;
        if self.waiting.len() >= self.limit {
            self.waiting.pop_front();
            self.pushed_out += 1;
        }
        self.waiting.push_back(record);
    }

    /// Under a listed key it takes the place of that record, which is replaced.
    fn join_keyed(&mut self, record: Listed) {
        let listed = self
            .waiting
            .iter_mut()
            .find(|other| other.key == record.key);
        match listed {
            Some(place) => {
                *place = record;
                self.accepted += 1;
                self.replaced += 1;
            }
            None => self.join(record),
        }
    }
}

/// One pacer: a list per class and two counters, P2's and the others'.
pub struct Page {
    queues: [Queue; 3],
    next: u64,
    next_p2: u64,
    bytes_sent: u64,
    waits: u64,
}

impl Page {
    pub fn new(limits: [usize; 3]) -> Self {
        Self {
            queues: limits.map(|limit| Queue {
                limit,
                ..Queue::default()
            }),
            next: 0,
            next_p2: 0,
            bytes_sent: 0,
            waits: 0,
        }
    }

    /// A P2 record uses up a number of the others' too, as in the Rust.
    pub fn hand_in(&mut self, handed: Handed) {
        let sequence = match handed.class {
            P2 => self.next_p2,
            _ => self.next,
        };
        let record = Listed {
            sequence,
            length: handed.bytes.len() as u64,
            key: handed.key,
            bytes: digest::of_bytes(handed.bytes),
        };
        self.next += 1;
        match handed.class {
            P2 => {
                self.next_p2 += 1;
                self.queues[P2].join_keyed(record);
            }
            class => self.queues[class].join(record),
        }
    }

    /// 12 uses up a number.
    pub fn use_up(&mut self) {
        self.next += 1;
    }

    /// `sent` takes its class's first.
    pub fn send(&mut self, class: usize) -> Option<Listed> {
        let queue = &mut self.queues[class];
        let first = queue.waiting.pop_front()?;
        queue.sent += 1;
        self.bytes_sent += first.length;
        Some(first)
    }

    pub fn count_wait(&mut self) {
        self.waits += 1;
    }

    /// The class that has its turn and its first record.
    pub fn head(&self) -> Option<(usize, Listed)> {
        let first = |class: usize| Some((class, *self.queues[class].waiting.front()?));
        (0..3).find_map(first)
    }

    /// What the pacer's line shows behind the bucket.
    pub fn shown(&self, forced: u64) -> Vec<u64> {
        let [p0, p1, p2] = &self.queues;
        let of = |count: fn(&Queue) -> u64| [count(p0), count(p1), count(p2)];
        let mut shown = of(|queue| queue.waiting.len() as u64).to_vec();
        let p2_bytes = p2.waiting.iter().map(|record| record.length).sum();
        shown.extend([self.next, self.next_p2, p2_bytes]);
        shown.extend(of(|queue| queue.accepted));
        shown.extend(of(|queue| queue.sent));
        shown.extend([p1.pushed_out, p2.replaced, p2.pushed_out]);
        shown.extend([self.bytes_sent, self.waits, forced, self.waiting()]);
        shown
    }

    /// The digest of what waits, P0's, P1's, then P2's.
    fn waiting(&self) -> u64 {
        let [p0, p1, p2] = &self.queues;
        let plain = p0.waiting.iter().chain(&p1.waiting);
        let keyed = p2.waiting.iter();
        plain
            .flat_map(|record| vec![record.sequence, record.length])
            .chain(keyed.flat_map(|record| {
                vec![record.sequence, record.length, record.key.0, record.key.1]
            }))
            .fold(digest::START, digest::joined)
    }

    /// The digest of each waiting record's bytes, P0's, P1's, then P2's.
    pub fn waiting_bytes(&self) -> Vec<u64> {
        let waiting = self.queues.iter().flat_map(|queue| &queue.waiting);
        waiting.map(|record| record.bytes).collect()
    }
}

/// Accepted = sent + pushed out + replaced + waiting, by the counts that a pacer's line shows.
pub fn add_up(shown: &[u64]) -> Result<(), String> {
    let [accepted, sent] = [&shown[12..15], &shown[15..18]];
    let waiting = &shown[6..9];
    let (pushed_out, replaced) = ([0, shown[18], shown[20]], [0, 0, shown[19]]);
    for class in 0..3 {
        let ends = sent[class] + pushed_out[class] + replaced[class] + waiting[class];
        if accepted[class] != ends {
            return Err(format!(
                "P{class}: {} accepted, {ends} accounted for",
                accepted[class]
            ));
        }
    }
    Ok(())
}
