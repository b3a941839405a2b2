//! Sizes, limits and bounds (docs/LAYOUT.md).

/// The most records that a list may have.
pub const MAX_RECORDS: usize = 65_536;
/// The most arrays and inline tables that may be open at once.
pub const MAX_DEPTH: usize = 64;
/// The most bytes that a text may have, and the most that `base` and the end of a token may be.
pub const MAX_BYTES: u32 = 16_777_216;

/// Bytes of a token record.
pub const RECORD_SIZE: usize = 6;
/// Words of an event.
pub const EVENT_SIZE: usize = 4;
/// Words of an error.
pub const ERROR_SIZE: usize = 7;
/// Bytes of an index entry.
pub const ENTRY_SIZE: usize = 17;

/// Records that are enough for a text of so many bytes: it is proved that there are at most so many, the Eof included.
pub const fn enough_records(text_bytes: usize) -> usize {
    text_bytes + 1
}

/// Words that are enough for the events of so many records, at any entry: it is proved that there are at most three a record.
pub const fn enough_event_words(records: usize) -> usize {
    EVENT_SIZE * 3 * records
}

/// Words that are enough for the errors of so many records, at any entry: it is proved that there are at most two a record and
/// one more.
pub const fn enough_error_words(records: usize) -> usize {
    ERROR_SIZE * (2 * records + 1)
}

/// Words that are enough for the mistakes of so many records: it is proved that there are at most five a record and one more.
pub const fn enough_mistake_words(records: usize) -> usize {
    ERROR_SIZE * (5 * records + 1)
}

/// Words that are enough for the events of a text of so many bytes.
pub const fn enough_text_event_words(text_bytes: usize) -> usize {
    enough_event_words(enough_records(text_bytes))
}

/// Words that are enough for the errors of a text of so many bytes.
pub const fn enough_text_error_words(text_bytes: usize) -> usize {
    enough_error_words(enough_records(text_bytes))
}

/// Words that are enough for the mistakes of a text of so many bytes.
pub const fn enough_text_mistake_words(text_bytes: usize) -> usize {
    enough_mistake_words(enough_records(text_bytes))
}
