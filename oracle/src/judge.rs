//! The main function: what document 01 says the answer and both buffers must be.
//!
//! The counted copy finds refusal 6. Wherever 6 is not given the lists are those
//! of the unchanged original.

use crate::lexer::Token;
use crate::numbers::ERROR_WORDS;
use crate::records;
use crate::walk;
use crate::walk::Lists;
use crate::Entry;

/// How many arrays and inline tables may be open at once.
pub const LEVELS: usize = 64;

/// Refusal number (0 if none), its place, and the counts of both lists.
#[derive(Copy, Clone, Default, PartialEq, Eq, Debug)]
pub struct Answer {
    pub refusal: u32,
    pub place: usize,
    pub events: usize,
    pub errors: usize,
}

/// The answer for these records, with the first entries of both lists written to
/// the buffers as far as they fit. Other words of the buffers stay as they are.
pub fn judge(
    entry: Entry,
    base: u32,
    bytes: &[u8],
    events: &mut [u32],
    errors: &mut [u32],
) -> Answer {
    judge_with_levels(entry, base, bytes, LEVELS, events, errors)
}

/// The same with another number of levels.
pub fn judge_with_levels(
    entry: Entry,
    base: u32,
    bytes: &[u8],
    levels: usize,
    events: &mut [u32],
    errors: &mut [u32],
) -> Answer {
    let tokens = match records::tokens(base, bytes) {
        Ok(tokens) => tokens,
        Err(refusal) => return early(refusal),
    };
    match walk::counted(entry, &tokens, levels) {
        (lists, Some(record)) => write(&lists, Some(record), events, errors),
        (_, None) => write(&walk::unchanged(entry, &tokens), None, events, errors),
    }
}

/// The same as [`judge`], or a text on how the counted copy and the unchanged
/// original differ. Where 6 is given, the copy's lists must be the first part of
/// the original's, and the original's next event the open that was refused.
pub fn judge_compared(
    entry: Entry,
    base: u32,
    bytes: &[u8],
    events: &mut [u32],
    errors: &mut [u32],
) -> Result<Answer, String> {
    Ok(judged_compared(entry, base, bytes)?.answer(events, errors))
}

/// What these records give before any room is known.
#[derive(Clone, PartialEq, Eq, Debug)]
pub enum Judged {
    /// A refusal among 1 to 5.
    Early(records::Refusal),
    /// The lists, and the record of refusal 6 if that is given.
    Walked(Lists, Option<usize>),
}

impl Judged {
    /// How many events and errors there are.
    pub fn counts(&self) -> (usize, usize) {
        match self {
            Judged::Early(_) => (0, 0),
            Judged::Walked(lists, _) => (lists.events.len(), lists.errors.len()),
        }
    }

    /// The answer with so many words of room.
    pub fn answer_in(&self, event_words: usize, error_words: usize) -> Answer {
        match self {
            Judged::Early(refusal) => early(*refusal),
            Judged::Walked(lists, stop) => answer(lists, *stop, event_words, error_words),
        }
    }

    /// The answer with buffers of this size, to which what fits is written.
    pub fn answer(&self, events: &mut [u32], errors: &mut [u32]) -> Answer {
        match self {
            Judged::Early(refusal) => early(*refusal),
            Judged::Walked(lists, stop) => write(lists, *stop, events, errors),
        }
    }
}

/// As [`judge_compared`], for any number of rooms.
pub fn judged_compared(entry: Entry, base: u32, bytes: &[u8]) -> Result<Judged, String> {
    match records::tokens(base, bytes) {
        Ok(tokens) => judged_walk(entry, &tokens),
        Err(refusal) => Ok(Judged::Early(refusal)),
    }
}

/// As [`judged_compared`], for records of these very tokens: the records must give them.
pub fn judged_tokens(
    entry: Entry,
    base: u32,
    bytes: &[u8],
    tokens: &[Token],
) -> Result<Judged, String> {
    match records::tokens(base, bytes) {
        Ok(found) if found != tokens => Err("records that give other tokens".to_string()),
        Ok(_) => judged_walk(entry, tokens),
        Err(refusal) => Ok(Judged::Early(refusal)),
    }
}

fn judged_walk(entry: Entry, tokens: &[Token]) -> Result<Judged, String> {
    let (counted, stop) = walk::counted(entry, tokens, LEVELS);
    let unchanged = walk::unchanged(entry, tokens);
    compare(tokens, &counted, stop, &unchanged)?;
    let lists = if stop.is_some() { counted } else { unchanged };
    Ok(Judged::Walked(lists, stop))
}

/// How the counted copy's lists differ from the original's, if they do.
fn compare(
    tokens: &[Token],
    counted: &Lists,
    stop: Option<usize>,
    unchanged: &Lists,
) -> Result<(), String> {
    let Some(record) = stop else {
        return if counted == unchanged {
            Ok(())
        } else {
            Err(format!(
                "counted copy: {counted:?}\nunchanged: {unchanged:?}"
            ))
        };
    };
    if !unchanged.events.starts_with(&counted.events) {
        return Err(format!("events before the stop at record {record} differ"));
    }
    if !unchanged.errors.starts_with(&counted.errors) {
        return Err(format!("errors before the stop at record {record} differ"));
    }
    let span = tokens[record].span();
    let kind = match tokens[record].kind().number() {
        4 => 10,
        6 => 12,
        other => return Err(format!("stop at record {record} of kind {other}")),
    };
    let open = [kind, 0, span.start() as u32, span.end() as u32];
    if unchanged.events.get(counted.events.len()) != Some(&open) {
        return Err(format!(
            "the stop at record {record} is not before its open event"
        ));
    }
    Ok(())
}

/// The answer to a refusal among 1 to 5.
fn early(refusal: records::Refusal) -> Answer {
    Answer {
        refusal: refusal.number,
        place: refusal.place,
        ..Answer::default()
    }
}

/// Writes what fits and gives the answer.
fn write(lists: &Lists, stop: Option<usize>, events: &mut [u32], errors: &mut [u32]) -> Answer {
    for (place, event) in events.chunks_exact_mut(4).zip(&lists.events) {
        place.copy_from_slice(event);
    }
    for (place, error) in errors.chunks_exact_mut(ERROR_WORDS).zip(&lists.errors) {
        place.copy_from_slice(error);
    }
    answer(lists, stop, events.len(), errors.len())
}

/// The answer with so many words of room, refusals 6 to 8 among it.
fn answer(lists: &Lists, stop: Option<usize>, event_words: usize, error_words: usize) -> Answer {
    let (refusal, place) = match stop {
        Some(record) => (6, record),
        None if lists.events.len() > event_words / 4 => (7, 0),
        None if lists.errors.len() > error_words / ERROR_WORDS => (8, 0),
        None => (0, 0),
    };
    Answer {
        refusal,
        place,
        events: lists.events.len(),
        errors: lists.errors.len(),
    }
}
