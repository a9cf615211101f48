//! How often tapes reach each kind of word, each answer and each kind of field.

use std::collections::BTreeMap;
use std::io::{self, Write};

use crate::congestion::writer_pacer::SendAction;
use crate::tape::item::{decode, Item};
use crate::tape::many::Tape;
use crate::tape::run::{run, Fields, Line};
use crate::tape::READ_BYTES;

type Counts<Key> = BTreeMap<Key, u64>;

#[derive(Default)]
struct Tally {
    /// By an item's name.
    items: Counts<&'static str>,
    /// By an item's name, its answer and the kind of its fields.
    replies: Counts<(&'static str, u64, &'static str)>,
    answers: Counts<u64>,
}

impl Tally {
    fn count(&mut self, tape: &[u8]) {
        let tape = &tape[..tape.len().min(READ_BYTES)];
        self.count_items(tape);
        for line in run(tape) {
            let answer = line.reply.answer;
            let item = line.item.unwrap_or("broken");
            *self.replies.entry((item, answer, kind(&line))).or_default() += 1;
            *self.answers.entry(answer).or_default() += 1;
        }
    }

    fn count_items(&mut self, tape: &[u8]) {
        let mut index = 0;
        while let Some((item, words)) = decode(tape, index) {
            *self.items.entry(item.name()).or_default() += 1;
            if item == Item::End {
                return;
            }
            index += words;
        }
    }
}

/// The kind of a line's fields.
fn kind(line: &Line) -> &'static str {
    match &line.reply.fields {
        Fields::None => "",
        Fields::Signal(false) => "no signal",
        Fields::Signal(true) => "signal",
        Fields::Updates(None) => "none",
        Fields::Updates(Some(updates)) if updates.is_empty() => "no writers",
        Fields::Updates(Some(_)) => "updates",
        Fields::Send(SendAction::Send(_)) => "sent",
        Fields::Send(SendAction::Empty) => "empty",
        Fields::Send(SendAction::RateLimited { .. }) => "wait",
    }
}

pub fn count(tapes: &[Tape], mut output: impl Write) -> io::Result<()> {
    let mut tally = Tally::default();
    for tape in tapes {
        tally.count(&tape.bytes);
    }
    writeln!(output, "{} tapes", tapes.len())?;
    writeln!(output, "items read:")?;
    for (item, count) in &tally.items {
        writeln!(output, "  {item:10} {count:>10}")?;
    }
    writeln!(output, "lines, by item, answer and fields:")?;
    for ((item, answer, fields), count) in &tally.replies {
        writeln!(output, "  {item:10} {answer:>2} {fields:10} {count:>10}")?;
    }
    writeln!(output, "lines, by answer:")?;
    for (answer, count) in &tally.answers {
        writeln!(output, "  {answer:>2} {count:>10}")?;
    }
    output.flush()
}
