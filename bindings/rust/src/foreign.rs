//! The functions of libdeckmarten.a. This is the one place with unsafe code.
//!
//! Each call lends slices. Its safety is the same everywhere: the functions declared here require only that each pointer and length
//! is a slice of what they declare, lent for the call, and that the slices that are written overlap nothing. Rust's references are that, with
//! pointers that are never null. It is proved that the functions end and read and write nothing else. They keep no pointer and have no
//! state, so any thread may call them at any time.
#![allow(unsafe_code)]

use crate::{Entry, Options, Token};

/// `struct deckmarten_answer` of include/deckmarten.h.
#[derive(Clone, Copy, Debug)]
#[repr(C)]
pub(crate) struct RawAnswer {
    pub(crate) refusal: u32,
    pub(crate) place: usize,
    pub(crate) events: usize,
    pub(crate) errors: usize,
}

/// `struct deckmarten_text_answer`.
#[derive(Clone, Copy, Debug)]
#[repr(C)]
pub(crate) struct RawTextAnswer {
    pub(crate) refusal: u32,
    pub(crate) place: usize,
    pub(crate) base: u32,
    pub(crate) records: usize,
    pub(crate) events: usize,
    pub(crate) errors: usize,
}

/// `struct deckmarten_lexed`.
#[derive(Clone, Copy, Debug)]
#[repr(C)]
pub(crate) struct RawLexed {
    pub(crate) refusal: u32,
    pub(crate) place: usize,
    pub(crate) base: u32,
    pub(crate) records: usize,
}

/// `struct deckmarten_verdict`.
#[derive(Clone, Copy, Debug)]
#[repr(C)]
pub(crate) struct RawVerdict {
    pub(crate) fits: bool,
    pub(crate) refusal: u32,
    pub(crate) place: usize,
}

/// `struct deckmarten_indexed`.
#[derive(Clone, Copy, Debug)]
#[repr(C)]
pub(crate) struct RawIndexed {
    pub(crate) refusal: u32,
    pub(crate) headers: usize,
    pub(crate) bytes: usize,
}

/// `struct deckmarten_header`.
#[derive(Clone, Copy, Debug)]
#[repr(C)]
pub(crate) struct RawHeader {
    pub(crate) found: u32,
    pub(crate) array: u32,
    pub(crate) place: usize,
    pub(crate) parts: usize,
    pub(crate) events: usize,
    pub(crate) next: usize,
}

/// `struct deckmarten_options`.
#[derive(Clone, Copy, Debug)]
#[repr(C)]
pub(crate) struct RawOptions {
    pub(crate) mode: u32,
}

/// `struct deckmarten_listed`.
#[derive(Clone, Copy, Debug)]
#[repr(C)]
pub(crate) struct RawListed {
    pub(crate) refusal: u32,
    pub(crate) place: usize,
    pub(crate) mistakes: usize,
}

/// `struct deckmarten_check`.
#[derive(Clone, Copy, Debug)]
#[repr(C)]
pub(crate) struct RawCheck {
    pub(crate) refusal: u32,
    pub(crate) place: usize,
    pub(crate) base: u32,
    pub(crate) records: usize,
    pub(crate) events: usize,
    pub(crate) errors: usize,
    pub(crate) mistakes: usize,
}

/// Declares entries as include/deckmarten.h does, each with what its list is made of: a slice is a pointer and a length.
macro_rules! entries {
    ($($name:ident $item:ty,)+) => {
        extern "C" {
            $(fn $name(
                list: *const $item, length: usize, base: u32, options: RawOptions, events: *mut u32, event_words: usize, errors: *mut u32,
                error_words: usize,
            ) -> RawAnswer;)+
        }
    };
}
entries! {
    deckmarten_parse_document u8,
    deckmarten_parse_key u8,
    deckmarten_parse_simple_key u8,
    deckmarten_parse_value u8,
}

#[rustfmt::skip]
extern "C" {
    fn deckmarten_version() -> u32;
    fn deckmarten_parse_tokens_in(
        mode: u32, tokens: *const Token, count: usize, base: u32, events: *mut u32, event_words: usize, errors: *mut u32, error_words: usize,
    ) -> RawAnswer;
    fn deckmarten_lex(text: *const u8, bytes: usize, records: *mut u8, record_bytes: usize) -> RawLexed;
    fn deckmarten_parse_text(
        text: *const u8, bytes: usize, options: RawOptions, records: *mut u8, record_bytes: usize, events: *mut u32, event_words: usize,
        errors: *mut u32, error_words: usize,
    ) -> RawTextAnswer;
    fn deckmarten_text_fits(
        text: *const u8, bytes: usize, records: *mut u8, record_bytes: usize, events: *mut u32, event_words: usize,
    ) -> RawVerdict;
    fn deckmarten_fits(records: *const u8, bytes: usize, base: u32, events: *mut u32, event_words: usize) -> RawVerdict;
    fn deckmarten_is_quiet(answer: RawAnswer, events: *const u32, event_words: usize) -> bool;
    fn deckmarten_is_regular(records: *const u8, bytes: usize, base: u32) -> bool;
    fn deckmarten_index(answer: RawAnswer, events: *const u32, event_words: usize, index: *mut u8, index_bytes: usize) -> RawIndexed;
    fn deckmarten_header_at(index: *const u8, index_bytes: usize, at: usize) -> RawHeader;
    fn deckmarten_mistakes(
        records: *const u8, record_bytes: usize, base: u32, answer: RawAnswer, events: *const u32, event_words: usize, errors: *const u32,
        error_words: usize, mistakes: *mut u32, mistake_words: usize,
    ) -> RawListed;
    fn deckmarten_check_text(
        text: *const u8, bytes: usize, records: *mut u8, record_bytes: usize, events: *mut u32, event_words: usize, errors: *mut u32,
        error_words: usize, mistakes: *mut u32, mistake_words: usize,
    ) -> RawCheck;
}

/// A function of the library over a list.
type Function<T> = unsafe extern "C" fn(*const T, usize, u32, RawOptions, *mut u32, usize, *mut u32, usize) -> RawAnswer;

/// Calls an entry over records.
pub(crate) fn call(
    entry: Entry,
    records: &[u8],
    base: u32,
    options: Options,
    events: &mut [u32],
    errors: &mut [u32],
) -> RawAnswer {
    let function = match entry {
        Entry::Document => deckmarten_parse_document,
        Entry::Key => deckmarten_parse_key,
        Entry::SimpleKey => deckmarten_parse_simple_key,
        Entry::Value => deckmarten_parse_value,
    };
    lend(function, records, base, options, events, errors)
}

/// Calls the entry over tokens.
#[rustfmt::skip]
pub(crate) fn call_with_tokens(
    tokens: &[Token],
    base: u32,
    options: Options,
    events: &mut [u32],
    errors: &mut [u32],
) -> RawAnswer {
    // SAFETY: see above
    unsafe {
        deckmarten_parse_tokens_in(
            options.raw().mode, tokens.as_ptr(), tokens.len(), base, events.as_mut_ptr(), events.len(), errors.as_mut_ptr(), errors.len(),
        )
    }
}

/// Lends the slices to one of the functions that `entries!` declares.
#[rustfmt::skip]
fn lend<T>(function: Function<T>, list: &[T], base: u32, options: Options, events: &mut [u32], errors: &mut [u32]) -> RawAnswer {
    // SAFETY: see above; no other function comes here
    unsafe {
        function(
            list.as_ptr(), list.len(), base, options.raw(), events.as_mut_ptr(), events.len(), errors.as_mut_ptr(), errors.len(),
        )
    }
}

pub(crate) fn version() -> u32 {
    // SAFETY: it takes nothing
    unsafe { deckmarten_version() }
}

pub(crate) fn lex(text: &[u8], records: &mut [u8]) -> RawLexed {
    // SAFETY: see above
    unsafe { deckmarten_lex(text.as_ptr(), text.len(), records.as_mut_ptr(), records.len()) }
}

#[rustfmt::skip]
pub(crate) fn parse_text(
    text: &[u8], options: Options, records: &mut [u8], events: &mut [u32], errors: &mut [u32],
) -> RawTextAnswer {
    // SAFETY: see above
    unsafe {
        deckmarten_parse_text(
            text.as_ptr(), text.len(), options.raw(), records.as_mut_ptr(), records.len(), events.as_mut_ptr(), events.len(),
            errors.as_mut_ptr(), errors.len(),
        )
    }
}

#[rustfmt::skip]
pub(crate) fn text_fits(text: &[u8], records: &mut [u8], events: &mut [u32]) -> RawVerdict {
    // SAFETY: see above
    unsafe {
        deckmarten_text_fits(text.as_ptr(), text.len(), records.as_mut_ptr(), records.len(), events.as_mut_ptr(), events.len())
    }
}

pub(crate) fn fits(records: &[u8], base: u32, events: &mut [u32]) -> RawVerdict {
    // SAFETY: see above
    unsafe { deckmarten_fits(records.as_ptr(), records.len(), base, events.as_mut_ptr(), events.len()) }
}

pub(crate) fn is_quiet(answer: RawAnswer, events: &[u32]) -> bool {
    // SAFETY: see above
    unsafe { deckmarten_is_quiet(answer, events.as_ptr(), events.len()) }
}

pub(crate) fn is_regular(records: &[u8]) -> bool {
    // SAFETY: see above. Where the first token starts does not matter here.
    unsafe { deckmarten_is_regular(records.as_ptr(), records.len(), 0) }
}

pub(crate) fn index(answer: RawAnswer, events: &[u32], index: &mut [u8]) -> RawIndexed {
    // SAFETY: see above
    unsafe { deckmarten_index(answer, events.as_ptr(), events.len(), index.as_mut_ptr(), index.len()) }
}

pub(crate) fn header_at(index: &[u8], at: usize) -> RawHeader {
    // SAFETY: see above
    unsafe { deckmarten_header_at(index.as_ptr(), index.len(), at) }
}

#[rustfmt::skip]
pub(crate) fn mistakes(records: &[u8], base: u32, answer: RawAnswer, events: &[u32], errors: &[u32], mistakes: &mut [u32]) -> RawListed {
    // SAFETY: see above
    unsafe {
        deckmarten_mistakes(
            records.as_ptr(), records.len(), base, answer, events.as_ptr(), events.len(), errors.as_ptr(), errors.len(),
            mistakes.as_mut_ptr(), mistakes.len(),
        )
    }
}

#[rustfmt::skip]
pub(crate) fn check_text(text: &[u8], records: &mut [u8], events: &mut [u32], errors: &mut [u32], mistakes: &mut [u32]) -> RawCheck {
    // SAFETY: see above
    unsafe {
        deckmarten_check_text(
            text.as_ptr(), text.len(), records.as_mut_ptr(), records.len(), events.as_mut_ptr(), events.len(), errors.as_mut_ptr(),
            errors.len(), mistakes.as_mut_ptr(), mistakes.len(),
        )
    }
}
