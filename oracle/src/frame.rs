//! Frames: a case with the oracle's answer, as the checker of ./differ reads them.
//!
//! A frame is words of four bytes, the lowest byte first. The first says what it is:
//! 0, the end: the number of cases as two words, the lower first;
//! 1, a case: entry (0 to 3), base, number of bytes, words of room for events and for
//! errors, the four words of the answer, how many event words and error words were
//! written; then the bytes, filled up with zeros to whole words, and the written words;
//! 7, a case in a mode: the mode, and then what a frame of sort 1 has, which is in crate
//! mode;
//! 2, a note to show: its number of bytes, and the bytes, filled up likewise;
//! 3, a text: the mode, number of bytes of the text and of its records, words of its events and
//! of its errors, number of rooms; then the text and the records, filled up likewise,
//! and the words of events and errors, all that the text gives. Then for each room 20
//! words: bytes for records, words for events, words for errors; what lexing answers
//! (refusal, place, base, records) and how many bytes it writes; what the joined entry
//! answers (refusal, place, base, records, events, errors) and how many bytes and words
//! it writes to the three buffers; whether the text fits (fits, refusal, place);
//! 4, whether a list fits: base, number of bytes, words of room for events; the
//! verdict (fits, refusal, place); whether the list is regular (2 where that is not
//! asked), and whether a run with this room and none for errors is quiet; then the
//! bytes, filled up likewise;
//! 5, an index: refusal of the run; place, events and errors of the run, two words each,
//! the lower first; words of the event buffer, number of headers, number of rooms; then
//! the event words, and for each header place, parts, mark and events, and their entries,
//! filled up likewise; then for each room its bytes and the answer (refusal, headers,
//! bytes);
//! 6, a position in an index: number of bytes; the position, two words; what is there
//! (found, place, parts, mark, events); then the bytes, filled up likewise.

use crate::batch::Case;
use crate::headers;
use crate::headers::Found;
use crate::headers::Header;
use crate::headers::Indexed;
use crate::modes;
use crate::numbers::ERROR_WORDS;
use crate::texts::Lexed;
use crate::texts::Rooms;
use crate::texts::Text;
use crate::texts::Verdict;
use crate::walk::ENTRIES;
use crate::Answer;
use crate::Judged;

/// Appends the case with its answer and what was written to its buffers.
pub fn push_case(out: &mut Vec<u8>, case: &Case, answer: &Answer, events: &[u32], errors: &[u32]) {
    let place = ENTRIES.iter().position(|known| known.1 == case.entry);
    if case.mode == modes::CRATE {
        push(out, 1);
    } else {
        push(out, 7);
        push(out, case.mode as usize);
    }
    push(out, place.expect("each entry has a place"));
    push(out, case.base as usize);
    push(out, case.bytes.len());
    push(out, case.event_words);
    push(out, case.error_words);
    push(out, answer.refusal as usize);
    push(out, answer.place);
    push(out, answer.events);
    push(out, answer.errors);
    let event_words = 4 * answer.events.min(case.event_words / 4);
    let error_words = ERROR_WORDS * answer.errors.min(case.error_words / ERROR_WORDS);
    push(out, event_words);
    push(out, error_words);
    push_bytes(out, &case.bytes);
    for word in events[..event_words].iter().chain(&errors[..error_words]) {
        push(out, *word as usize);
    }
}

/// Appends a text of this mode with what it gives, as of the second mode, in each of these
/// rooms: they are the same unless something wrong is wanted. Of its records so many bytes at
/// the end are said not to be written, which is right only if they are 0.
pub fn push_text(
    out: &mut Vec<u8>,
    (mode, asked): (u32, u32),
    bytes: &[u8],
    text: &Text,
    rooms: &[Rooms],
    unwritten: usize,
) {
    let needs = text.needs();
    push(out, 3);
    push(out, mode as usize);
    push(out, bytes.len());
    push(out, needs.record_bytes);
    push(out, needs.event_words);
    push(out, needs.error_words);
    push(out, rooms.len());
    push_bytes(out, bytes);
    if let Text::Tokens {
        records, judged, ..
    } = text
    {
        push_bytes(out, records);
        if let Judged::Walked(lists, _) = judged {
            let words = lists.events.iter().flatten();
            let words = words.chain(lists.errors.iter().flatten());
            words.for_each(|word| push(out, *word as usize));
        }
    }
    for room in rooms {
        push_rooms(out, room);
        push_in_room(
            out,
            asked,
            text,
            needs.record_bytes.saturating_sub(unwritten),
            room,
        );
    }
}

fn push_in_room(out: &mut Vec<u8>, mode: u32, text: &Text, written: usize, room: &Rooms) {
    let lexed = text.lexed(room.record_bytes);
    let record_bytes = if lexed.refusal == 0 { written } else { 0 };
    push_lexed(out, &lexed);
    push(out, record_bytes);
    let parsed = text.parsed(mode, *room);
    let record_bytes = if parsed.lexed.refusal == modes::UNKNOWN_MODE {
        0
    } else {
        record_bytes
    };
    push_lexed(out, &parsed.lexed);
    push(out, parsed.events);
    push(out, parsed.errors);
    push_rooms(
        out,
        &Rooms {
            record_bytes,
            event_words: 4 * parsed.events.min(room.event_words / 4),
            error_words: ERROR_WORDS * parsed.errors.min(room.error_words / ERROR_WORDS),
        },
    );
    push_verdict(out, &text.verdict(room.record_bytes, room.event_words));
}

fn push_rooms(out: &mut Vec<u8>, rooms: &Rooms) {
    push(out, rooms.record_bytes);
    push(out, rooms.event_words);
    push(out, rooms.error_words);
}

fn push_lexed(out: &mut Vec<u8>, lexed: &Lexed) {
    push(out, lexed.refusal as usize);
    push(out, lexed.place);
    push(out, lexed.base as usize);
    push(out, lexed.records);
}

fn push_verdict(out: &mut Vec<u8>, verdict: &Verdict) {
    push(out, usize::from(verdict.fits));
    push(out, verdict.refusal as usize);
    push(out, verdict.place);
}

/// Appends whether a list fits, is regular, and is quiet.
pub fn push_fits(out: &mut Vec<u8>, case: &Case, verdict: &Verdict, regular: usize, quiet: bool) {
    push(out, 4);
    push(out, case.base as usize);
    push(out, case.bytes.len());
    push(out, case.event_words);
    push_verdict(out, verdict);
    push(out, regular);
    push(out, usize::from(quiet));
    push_bytes(out, &case.bytes);
}

/// Appends the index of a run with this answer and these event words, in these rooms, each
/// with what is answered in it.
pub fn push_index(
    out: &mut Vec<u8>,
    answer: &Answer,
    words: &[u32],
    headers: &[Header],
    rooms: &[(usize, Indexed)],
) {
    push(out, 5);
    push(out, answer.refusal as usize);
    for count in [answer.place, answer.events, answer.errors] {
        push_large(out, count);
    }
    for count in [words.len(), headers.len(), rooms.len()] {
        push(out, count);
    }
    words.iter().for_each(|word| push(out, *word as usize));
    headers.iter().for_each(|header| push_header(out, header));
    push_bytes(out, &headers::entries(headers));
    for (room, indexed) in rooms {
        push(out, *room);
        push(out, indexed.refusal as usize);
        push(out, indexed.headers);
        push(out, indexed.bytes);
    }
}

fn push_header(out: &mut Vec<u8>, header: &Header) {
    push(out, header.place);
    push(out, header.parts);
    push(out, usize::from(header.array));
    push(out, header.events);
}

/// Appends what is at a position in the bytes of an index.
pub fn push_found(out: &mut Vec<u8>, bytes: &[u8], at: usize, found: &Found) {
    push(out, 6);
    push(out, bytes.len());
    push_large(out, at);
    match found {
        Found::Header(header) => {
            push(out, 1);
            push_header(out, header);
        }
        Found::None => out.resize(out.len() + 20, 0),
        Found::NoEntry => {
            push(out, 2);
            out.resize(out.len() + 16, 0);
        }
    }
    push_bytes(out, bytes);
}

/// Appends a note.
pub fn push_note(out: &mut Vec<u8>, text: &str) {
    push(out, 2);
    push(out, text.len());
    push_bytes(out, text.as_bytes());
}

/// Appends the end.
pub fn push_end(out: &mut Vec<u8>, cases: u64) {
    push(out, 0);
    out.extend_from_slice(&cases.to_le_bytes());
}

fn push(out: &mut Vec<u8>, word: usize) {
    let word = u32::try_from(word).expect("a word of 32 bits");
    out.extend_from_slice(&word.to_le_bytes());
}

/// Two words, the lower first.
fn push_large(out: &mut Vec<u8>, number: usize) {
    out.extend_from_slice(&(number as u64).to_le_bytes());
}

fn push_bytes(out: &mut Vec<u8>, bytes: &[u8]) {
    out.extend_from_slice(bytes);
    out.resize(out.len() + bytes.len().wrapping_neg() % 4, 0);
}
