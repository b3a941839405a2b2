//! The library, by its C functions for documents and for texts.

use crate::Buffers;
use crate::Counts;
use crate::TextBuffers;

#[repr(C)]
struct Answer {
    refusal: u32,
    place: usize,
    events: usize,
    errors: usize,
}

#[repr(C)]
struct Lexed {
    refusal: u32,
    place: usize,
    base: u32,
    records: usize,
}

#[repr(C)]
struct TextAnswer {
    refusal: u32,
    place: usize,
    base: u32,
    records: usize,
    events: usize,
    errors: usize,
}

#[repr(C)]
struct Options {
    mode: u32,
}

extern "C" {
    fn deckmarten_lex(
        text: *const u8,
        bytes: usize,
        records: *mut u8,
        record_bytes: usize,
    ) -> Lexed;
    fn deckmarten_parse_text(
        text: *const u8,
        bytes: usize,
        options: Options,
        records: *mut u8,
        record_bytes: usize,
        events: *mut u32,
        event_words: usize,
        errors: *mut u32,
        error_words: usize,
    ) -> TextAnswer;
    fn deckmarten_parse_document(
        records: *const u8,
        bytes: usize,
        base: u32,
        options: Options,
        events: *mut u32,
        event_words: usize,
        errors: *mut u32,
        error_words: usize,
    ) -> Answer;
}

/// One walk: the check of the records, and the document. What callgrind counts in this function is the library's side.
#[inline(never)]
pub fn walk(bytes: &[u8], buffers: &mut Buffers) -> Counts {
    let answer = document(bytes, buffers);
    assert_eq!(answer.refusal, 0, "refused at {}", answer.place);
    Counts {
        events: answer.events,
        errors: answer.errors,
    }
}

/// The check of the records, and of the document only the beginning, where the walk stops: nearly all that callgrind counts in
/// this function is the check.
#[inline(never)]
pub fn check(stopped_at_once: &[u8], buffers: &mut Buffers) {
    let answer = document(stopped_at_once, buffers);
    assert_eq!(answer.refusal, 6, "not stopped");
}

/// The same walk with no room for errors: what it takes less is what writing them takes, with their lines.
#[inline(never)]
pub fn unreported(bytes: &[u8], buffers: &mut Buffers) {
    let errors = std::mem::take(&mut buffers.errors);
    let answer = document(bytes, buffers);
    assert_eq!(answer.refusal, 8, "the errors fit");
    buffers.errors = errors;
}

#[inline(always)]
fn document(bytes: &[u8], buffers: &mut Buffers) -> Answer {
    let Buffers {
        mode,
        events,
        errors,
    } = buffers;
    // SAFETY: each pointer has its length, and the three do not overlap: all that include/deckmarten.h asks for.
    unsafe {
        deckmarten_parse_document(
            bytes.as_ptr(),
            bytes.len(),
            0,
            Options { mode: *mode },
            events.as_mut_ptr(),
            events.len(),
            errors.as_mut_ptr(),
            errors.len(),
        )
    }
}

/// From bytes to events. What callgrind counts in this function is the library's side.
#[inline(never)]
pub fn text(bytes: &[u8], buffers: &mut TextBuffers) -> Counts {
    let TextBuffers {
        records,
        words: Buffers {
            mode,
            events,
            errors,
        },
    } = buffers;
    // SAFETY: each pointer has its length, and the four do not overlap: all that include/deckmarten.h asks for.
    let answer = unsafe {
        deckmarten_parse_text(
            bytes.as_ptr(),
            bytes.len(),
            Options { mode: *mode },
            records.as_mut_ptr(),
            records.len(),
            events.as_mut_ptr(),
            events.len(),
            errors.as_mut_ptr(),
            errors.len(),
        )
    };
    assert_eq!(
        (answer.refusal, answer.base),
        (0, 0),
        "refused at {}",
        answer.place
    );
    assert!(answer.records <= records.len() / 6);
    Counts {
        events: answer.events,
        errors: answer.errors,
    }
}

/// From bytes to records, and how many they are.
#[inline(never)]
pub fn lex(bytes: &[u8], records: &mut [u8]) -> usize {
    // SAFETY: as above.
    let answer = unsafe {
        deckmarten_lex(
            bytes.as_ptr(),
            bytes.len(),
            records.as_mut_ptr(),
            records.len(),
        )
    };
    assert_eq!(
        (answer.refusal, answer.base),
        (0, 0),
        "refused at {}",
        answer.place
    );
    answer.records
}
