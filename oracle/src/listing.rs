//! The listing of document 01: counts, events by name, errors by number.

use std::fmt::Write as _;

use crate::judge::Answer;
use crate::numbers::ERROR_WORDS;
use crate::numbers::EVENT_NAMES;

/// The listing of an answer and what was written to the buffers.
pub fn listing(answer: &Answer, events: &[u32], errors: &[u32]) -> String {
    if answer.refusal != 0 {
        return format!("refused {} place {}\n", answer.refusal, answer.place);
    }
    let mut text = format!("events {} errors {}\n", answer.events, answer.errors);
    for event in events.chunks_exact(4).take(answer.events) {
        let name = EVENT_NAMES[event[0] as usize - 1];
        let _ = writeln!(text, "{name} {} {} {}", event[2], event[3], event[1]);
    }
    for error in errors.chunks_exact(ERROR_WORDS).take(answer.errors) {
        let _ = write!(text, "error");
        for word in error {
            let _ = write!(text, " {word}");
        }
        text.push('\n');
    }
    text
}
