//! Holds what a side answered to a script against document 01's demand 3 ("What the port owes on paper"). The book is kept
//! from the calls' arguments, the answers and the class of each `sent` alone; the rest of a line is held against it.
//! The fourth part, contents, needs a second run: `judge/contents.rs`.

use std::fmt::Display;
use std::io::{self, BufRead, Read, Write};

use crate::congestion::config::CongestionConfig;
use crate::digest;
use crate::line::Lines;
use crate::operation::*;
use crate::play::coalescing::Bytes;
use crate::play::config::{self, Config};
use crate::refusal;
use crate::script::{read_record, Record};
use crate::show;

mod allowance;
mod book;
pub mod contents;
mod line;
mod waits;

use allowance::Span;
use book::{Handed, Page};
use line::{Place, StationLine, PLACES, SENT, WAIT};
use waits::Wait;

/// How many violations are told in full.
const TOLD: usize = 3;

/// Tells how much was judged and what is violated; true where nothing is.
pub fn judge(
    mut script: impl Read,
    lines: impl BufRead,
    mut output: impl Write,
) -> io::Result<bool> {
    let mut judge = Judge::default();
    let mut lines = lines.lines();
    while let Some(record) = read_record(&mut script)? {
        match lines.next().transpose()? {
            Some(line) => judge.see(record, &line),
            None => judge.violated(&record, "no line answers it"),
        }
        judge.index += 1;
    }
    judge.report(&mut output)?;
    Ok(judge.violations == 0)
}

/// How often each part was looked at.
#[derive(Default)]
struct Counts {
    lines: u64,
    sent: u64,
    attempts: u64,
    told: u64,
    waited: u64,
}

#[derive(Default)]
struct Judge {
    index: u64,
    config: Config,
    bytes: Bytes,
    list: List,
    counts: Counts,
    violations: u64,
    told: Vec<String>,
}

/// The calls on one station since it was made.
struct List {
    settings: CongestionConfig,
    /// Id and class of each writer, as registered.
    writers: Vec<(u64, u64)>,
    /// The writers' budgets, as registered.
    budgets: Vec<u64>,
    pages: [Page; PLACES],
    /// Since each pacer's rate was set last.
    spans: [Option<Span>; PLACES],
    waits: [Option<Wait>; PLACES],
    /// As the last line shows them.
    places: [Place; PLACES],
}

impl Default for List {
    /// The station that a script finds.
    fn default() -> Self {
        Self::new(CongestionConfig::default().with_queue_sizes(1, 1, 1))
    }
}

impl List {
    fn new(settings: CongestionConfig) -> Self {
        let limits = config::limits(&settings);
        Self {
            settings,
            writers: Vec::new(),
            budgets: Vec::new(),
            pages: [0; PLACES].map(|_| Page::new(limits)),
            spans: [None; PLACES],
            waits: [None; PLACES],
            places: [Place::default(); PLACES],
        }
    }

    /// The places of the writers by class and then by id.
    fn table(&self) -> Vec<usize> {
        let mut table: Vec<usize> = (0..self.writers.len()).collect();
        table.sort_by_key(|&place| {
            let (id, class) = self.writers[place];
            (class, id)
        });
        table
    }

    /// The page of a registered pacer.
    fn page(&mut self, pacer: usize) -> Option<&mut Page> {
        self.pages[..self.writers.len()].get_mut(pacer)
    }
}

impl Judge {
    fn see(&mut self, record: Record, line: &str) {
        match record.operation {
            CONFIG_NEW..=CONFIG_CHECK => self.config.play(record, &mut Lines::default()),
            BYTES_EMPTY..=BYTES_PATTERN => self.bytes.play(record, &mut Lines::default()),
            STATION_PLACE => self.see_place(&record, line),
            STATION_NEW..=STATION_CALLS => match StationLine::read(record.operation, line) {
                Some(line) => self.see_call(&record, &line),
                None => self.violated(&record, "its line is no station line"),
            },
            _ => {}
        }
    }

    /// What the call does to the book, and then the line against it.
    fn see_call(&mut self, record: &Record, line: &StationLine) {
        let accepted = line.answer == refusal::ACCEPTED;
        match record.operation {
            STATION_NEW if !accepted => return,
            STATION_NEW => self.list = List::new(self.config.settings().clone()),
            STATION_REGISTER if accepted => self.register(record, line),
            STATION_TICK | STATION_SET_RATE => self.rates(record, line),
            STATION_HAND_IN => self.hand_in(record, line),
            STATION_SEND if accepted => self.send(record, line),
            _ => {}
        }
        self.match_book(record, line);
        self.follow_buckets(record, line);
        if record.operation == STATION_SEND && accepted {
            self.check_allowance(record);
        }
        self.counts.lines += 1;
    }

    /// "A pacer starts at `min_rate_bps`, which counts as a rate setting".
    fn register(&mut self, record: &Record, line: &StationLine) {
        let [_, id, class, ..] = record.arguments;
        let place = self.list.writers.len();
        if place >= PLACES {
            return self.violated(record, "a fifth writer is accepted");
        }
        self.list.writers.push((id, class % 3));
        self.list.budgets.push(0);
        let least = self.list.settings.min_rate_bps;
        self.set(record, place, line.places[place], least);
    }

    /// "so does each budget update, sent to its `set_rate`".
    fn rates(&mut self, record: &Record, line: &StationLine) {
        let mut updates = digest::START;
        if line.answer == refusal::ACCEPTED && line.told == 1 {
            for (row, place) in self.list.table().into_iter().enumerate() {
                let (id, new) = (self.list.writers[place].0, line.budgets[row]);
                let previous = std::mem::replace(&mut self.list.budgets[place], new);
                updates = [id, previous, new]
                    .into_iter()
                    .fold(updates, digest::joined);
                self.set_to_budget(record, place, line.places[place], new);
            }
        }
        if line.updates != updates {
            self.violated(record, "the updates told are not the writers' budgets");
        }
    }

    fn set_to_budget(&mut self, record: &Record, place: usize, bucket: Place, budget: u64) {
        let settings = &self.list.settings;
        let (least, largest) = (settings.min_rate_bps, settings.max_rate_bps);
        let rate = budget.clamp(least.into(), largest.into());
        self.set(record, place, bucket, rate as u32);
    }

    fn set(&mut self, record: &Record, place: usize, bucket: Place, rate: u32) {
        if bucket.rate != u64::from(rate) {
            let told = format!("pacer {place}: rate {}, set to {rate}", bucket.rate);
            self.violated(record, told);
        }
        self.list.spans[place] = Some(Span::from(bucket));
        self.list.waits[place] = None;
        self.list.places[place] = bucket;
    }

    fn hand_in(&mut self, record: &Record, line: &StationLine) {
        let [_, pacer, class, topic, key] = record.arguments;
        let handed = Handed {
            class: class as usize % 3,
            key: (topic, key),
            bytes: self.bytes.bytes(),
        };
        if !matches!(line.answer, refusal::ACCEPTED | refusal::P0_FULL) {
            return;
        }
        let place = usize::from(pacer as u8);
        let Some(page) = self.list.page(place) else {
            return self.violated(record, "accepted for a pacer that nobody registered");
        };
        match line.answer {
            refusal::ACCEPTED => page.hand_in(handed),
            _ => page.use_up(),
        }
        self.list.waits[place] = None;
    }

    /// "each `sent` shows that first's sequence, length and bytes"; a wait that was told must be over in time.
    fn send(&mut self, record: &Record, line: &StationLine) {
        let [time, pacer, ..] = record.arguments;
        let place = usize::from(pacer as u8);
        self.counts.attempts += 1;
        let wait = self.list.waits.get_mut(place).and_then(Option::take);
        if let Some(wait) = wait.filter(|wait| wait.is_over(time)) {
            self.counts.waited += 1;
            if !wait.is_kept(line) {
                let told =
                    format!("pacer {place}: the wait told for {wait} is over, and it is not sent");
                self.violated(record, told);
            }
        }
        match line.action {
            SENT => self.sent(record, place, line),
            WAIT => self.wait(record, place, line),
            _ => {}
        }
    }

    fn sent(&mut self, record: &Record, place: usize, line: &StationLine) {
        self.counts.sent += 1;
        let Some(page) = self.list.page(place) else {
            return self.violated(record, "sent from a pacer that nobody registered");
        };
        let told = match page.send(line.class as usize) {
            None => format!("pacer {place}: nothing of P{} waits", line.class),
            Some(first) => match first.shown() == [line.sequence, line.length, line.bytes] {
                true => return self.pay(place, line),
                false => format!("pacer {place}: the first of P{} is {first}", line.class),
            },
        };
        self.violated(record, told);
    }

    fn pay(&mut self, place: usize, line: &StationLine) {
        if let Some(span) = &mut self.list.spans[place] {
            span.pay(line.class, line.length);
        }
    }

    /// A wait is told for the first record of P1 or, where none waits there, of P2.
    fn wait(&mut self, record: &Record, place: usize, line: &StationLine) {
        self.counts.told += 1;
        let Some(page) = self.list.page(place) else {
            return self.violated(record, "a wait of a pacer that nobody registered");
        };
        page.count_wait();
        match Wait::told(record.arguments[0], line.wait, page, line.places[place]) {
            Ok(wait) => self.list.waits[place] = Some(wait),
            Err(told) => self.violated(record, format!("pacer {place}: {told}")),
        }
    }

    /// "after every call each ring holds its list in order", and the pacer's own counts are the book's.
    fn match_book(&mut self, record: &Record, line: &StationLine) {
        if line.writers != self.list.writers.len() as u64 {
            self.violated(record, "another count of writers than were registered");
        }
        for place in 0..PLACES {
            let bucket = line.places[place];
            if digest::of(&self.expected(place, bucket)) != bucket.digest {
                let told = format!("pacer {place}: what waits or its counts are not the book's");
                self.violated(record, told);
            }
        }
        let waiting = self.list.pages.iter().flat_map(Page::waiting_bytes);
        if waiting.fold(digest::START, digest::joined) != line.waiting_bytes {
            self.violated(record, "the bytes that wait are not the book's");
        }
    }

    /// What `STATION_PLACE` shows: by the book, but for the bucket and the sends that were forced.
    fn expected(&self, place: usize, bucket: Place) -> Vec<u64> {
        let id = self.list.writers.get(place).map_or(0, |writer| writer.0);
        let mut shown = vec![place as u64, id];
        shown.extend(bucket.bucket());
        shown.extend(self.list.pages[place].shown(bucket.forced));
        shown
    }

    /// The pacer in full, as the last line shows its bucket; and "accepted = sent + pushed out + replaced + waiting".
    fn see_place(&mut self, record: &Record, line: &str) {
        let place = record.arguments[0] as usize % PLACES;
        let Some(shown) = line::place_numbers(line) else {
            return self.violated(record, "its line is no place line");
        };
        if shown[..] != self.expected(place, self.list.places[place]) {
            self.violated(record, "the pacer shown is not the book's");
        }
        if let Err(told) = book::add_up(&shown) {
            self.violated(record, told);
        }
    }

    /// Refills are counted, and no rate moves but where it is set.
    fn follow_buckets(&mut self, record: &Record, line: &StationLine) {
        for place in 0..PLACES {
            let (before, after) = (self.list.places[place], line.places[place]);
            self.list.places[place] = after;
            if let Some(span) = &mut self.list.spans[place] {
                span.refill(before, after);
            }
            if before.rate != after.rate {
                self.violated(record, format!("pacer {place}: its rate moved unset"));
            }
        }
    }

    /// The bytes of P1 and P2 that a pacer sent since its rate was set are within its allowance.
    fn check_allowance(&mut self, record: &Record) {
        let [time, pacer, ..] = record.arguments;
        let place = usize::from(pacer as u8);
        let Some(Some(span)) = self.list.spans.get(place) else {
            return;
        };
        if let Err(told) = span.check(time) {
            self.violated(record, format!("pacer {place}: {told}"));
        }
    }

    fn violated(&mut self, record: &Record, told: impl Display) {
        self.violations += 1;
        if self.told.len() < TOLD {
            let call = show::text(record);
            self.told
                .push(format!("  record {}: {call}\n    {told}", self.index));
        }
    }

    fn report(&self, output: &mut impl Write) -> io::Result<()> {
        match self.violations {
            0 => write!(output, "no violation")?,
            1 => write!(output, "1 violation")?,
            more => write!(output, "{more} violations")?,
        }
        let counts = &self.counts;
        writeln!(
            output,
            " in {} lines: {} sent, {} send attempts, {} waits told and {} tried once over",
            counts.lines, counts.sent, counts.attempts, counts.told, counts.waited
        )?;
        for told in &self.told {
            writeln!(output, "{told}")?;
        }
        Ok(())
    }
}
