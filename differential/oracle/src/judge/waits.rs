//! Waits: a record for which one was told goes once it is over, where the pacer is not touched between.

use std::fmt;

use super::book::{Listed, Page};
use super::line::{Place, StationLine, SENT};

const BILLION: u128 = 1_000_000_000;

#[derive(Clone, Copy)]
pub struct Wait {
    /// From this time on the record goes.
    over: u128,
    class: usize,
    record: Listed,
}

impl Wait {
    /// Of the page's first record, P0 being empty; worked out from the bucket as the attempt left it.
    pub fn told(time: u64, wait: u64, page: &Page, bucket: Place) -> Result<Self, String> {
        let (class, record) = match page.head() {
            None => return Err("a wait is told, and nothing waits".into()),
            Some((0, _)) => return Err("a wait is told, and P0 has a record".into()),
            Some(head) => head,
        };
        let needed = match record.length.checked_sub(bucket.tokens) {
            None | Some(0) => return Err("a wait is told, and there are tokens enough".into()),
            Some(needed) => u128::from(needed),
        };
        let rate = u128::from(bucket.rate);
        if (u128::from(wait) * rate).abs_diff(needed * BILLION) > rate {
            return Err(format!(
                "a wait of {wait} ns for {needed} bytes at {rate} bytes/s"
            ));
        }
        Ok(Self {
            over: u128::from(time) + u128::from(wait) + 1,
            class,
            record,
        })
    }

    pub fn is_over(&self, time: u64) -> bool {
        self.over <= u128::from(time)
    }

    /// The attempt sends that record.
    pub fn is_kept(&self, line: &StationLine) -> bool {
        let sent = [line.class, line.sequence, line.length];
        line.action == SENT && sent == [self.class as u64, self.record.sequence, self.record.length]
    }
}

impl fmt::Display for Wait {
    fn fmt(&self, f: &mut fmt::Formatter) -> fmt::Result {
        write!(f, "P{}'s {}", self.class, self.record)
    }
}
