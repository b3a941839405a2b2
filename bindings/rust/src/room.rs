//! Buffers that are always large enough.

use alloc::vec;
use alloc::vec::Vec;

use crate::limits::{enough_error_words, enough_event_words, enough_records, MAX_RECORDS, RECORD_SIZE};
use crate::text::{parse_text, record_bytes};
use crate::{Answer, Entry, Options, TextAnswer};

/// Buffers that grow to what a text or a list can need, and stay for the next. By the proved bounds the refusals
/// [`Events`](crate::Refusal::Events), [`Errors`](crate::Refusal::Errors) and [`Tokens`](crate::Refusal::Tokens) never come.
///
/// ```
/// use deckmarten::Room;
///
/// let text = "[[a]\nb = [1 \"c\"]\n";
/// let mut room = Room::new();
/// let answer = room.parse_text(text.as_bytes());
/// assert!(!answer.is_quiet());
/// let errors: Vec<String> = answer.errors().map(|error| error.to_string()).collect();
/// assert_eq!(
///     errors,
///     ["line 1: unclosed array table at 4..4, expected `]`", "line 2: missing comma between array elements at 12..12, expected `,`"],
/// );
/// ```
#[derive(Clone, Debug, Default)]
pub struct Room {
    records: Vec<u8>,
    events: Vec<u32>,
    errors: Vec<u32>,
    options: Options,
}

/// What the buffer held is no longer needed, so a larger one takes its place: fresh zeros cost nothing until they are touched.
fn grow<T: Clone + Default>(buffer: &mut Vec<T>, length: usize) {
    if buffer.len() < length {
        *buffer = vec![T::default(); length];
    }
}

impl Room {
    /// Buffers of no size yet.
    pub fn new() -> Room {
        Room::default()
    }

    /// The same, for runs with these options.
    pub fn with_options(options: Options) -> Room {
        Room { options, ..Room::default() }
    }

    /// Makes room for the events and errors of so many records. A longer list is refused before anything is stored.
    fn grow_for(&mut self, records: usize) {
        let count = records.min(MAX_RECORDS);
        grow(&mut self.events, enough_event_words(count));
        grow(&mut self.errors, enough_error_words(count));
    }

    /// Reads a text as a document, as [`parse_text`](crate::parse_text) does, with room for all its records, events and errors.
    ///
    /// ```
    /// use deckmarten::{EventKind, Room};
    ///
    /// // spans count from the text's first byte, also behind a byte order mark
    /// let text = "\u{feff}a = 1 # one\n";
    /// let mut room = Room::new();
    /// let answer = room.parse_text(text.as_bytes());
    /// assert!(answer.is_quiet());
    /// assert_eq!(answer.base(), 3);
    /// let comment = answer.events().find(|event| event.kind == EventKind::Comment).unwrap();
    /// assert_eq!(&text[comment.span.range()], "# one");
    /// ```
    pub fn parse_text(&mut self, text: &[u8]) -> TextAnswer<'_> {
        grow(&mut self.records, record_bytes(text));
        self.grow_for(enough_records(text.len()));
        parse_text(text, self.options, &mut self.records, &mut self.events, &mut self.errors)
    }

    /// Reads records, as [`Entry::parse`] does, with room for all events and errors.
    ///
    /// ```
    /// use deckmarten::{Entry, Records, Room, Token, TokenKind::*};
    ///
    /// let records: Records = [Token::new(Atom, 4), Token::new(Dot, 1), Token::new(BasicString, 6)].into_iter().collect();
    /// assert!(Room::new().parse(Entry::Key, records.as_bytes(), 0).is_quiet());
    /// ```
    pub fn parse(&mut self, entry: Entry, records: &[u8], base: u32) -> Answer<'_> {
        self.grow_for(records.len() / RECORD_SIZE);
        entry.parse(records, base, self.options, &mut self.events, &mut self.errors)
    }
}
