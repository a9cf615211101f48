//! A tape's lines as text.

use std::fmt::Write;

use crate::congestion::budget_allocator::WriterBudgetUpdate;
use crate::congestion::writer_pacer::SendAction;
use crate::tape::run::{Fields, Line};

const HEADER: &str = "word answer fields\n";

/// The header and the lines.
pub fn text(lines: &[Line]) -> Vec<u8> {
    let mut text = String::from(HEADER);
    for line in lines {
        text += &line_text(line);
        text.push('\n');
    }
    text.into_bytes()
}

/// One line, without its end.
pub fn line_text(line: &Line) -> String {
    let mut text = format!("{} {}", line.index, line.reply.answer);
    let fields = fields(&line.reply.fields);
    if !fields.is_empty() {
        text.push(' ');
        text += &fields;
    }
    text
}

fn fields(fields: &Fields) -> String {
    match fields {
        Fields::None => String::new(),
        Fields::Signal(signals) => u8::from(*signals).to_string(),
        Fields::Updates(None) => "none".into(),
        Fields::Updates(Some(updates)) => updates_text(updates),
        Fields::Send(action) => action_text(action),
    }
}

fn updates_text(updates: &[WriterBudgetUpdate]) -> String {
    let mut text = updates.len().to_string();
    for update in updates {
        let (id, previous, new) = (update.writer_id, update.previous_bps, update.budget_bps);
        write!(text, " {id}:{previous}:{new}").expect("a String takes any text");
    }
    text
}

fn action_text(action: &SendAction) -> String {
    match action {
        SendAction::Empty => "empty".into(),
        SendAction::Send(sample) => format!(
            "sent {} {} {}",
            sample.priority.as_u8(),
            sample.sequence,
            sample.data.len()
        ),
        SendAction::RateLimited { wait_time } => format!("wait {}", wait_time.as_nanos()),
    }
}
