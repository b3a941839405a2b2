//! What a run answers.

use core::ops::{Deref, Range};

use crate::foreign::{self, RawAnswer, RawTextAnswer};
use crate::limits::{ERROR_SIZE, EVENT_SIZE, RECORD_SIZE};
use crate::{Event, Header, Index, Indexed, ParseError, Refusal, Refused, Stored};

/// What a run answers, with the buffers that hold its events and errors. That there is one says nothing of the text: [`is_quiet`](Answer::is_quiet) does, and of a text
/// [`check`](crate::check) says all at once. It must be used:
///
/// ```compile_fail
/// #![deny(unused_must_use)]
/// deckmarten::Room::new().parse_text(b"[=ledger]");
/// ```
#[derive(Clone, Copy, Debug)]
#[must_use]
pub struct Answer<'b> {
    raw: RawAnswer,
    events: &'b [u32],
    errors: &'b [u32],
}

/// The part of a buffer that holds entries: as many as there are, or as fit.
fn stored<T>(buffer: &[T], count: usize, size: usize) -> &[T] {
    &buffer[..size * count.min(buffer.len() / size)]
}

impl<'b> Answer<'b> {
    pub(crate) fn new(raw: RawAnswer, events: &'b [u32], errors: &'b [u32]) -> Answer<'b> {
        Answer { raw, events: stored(events, raw.events, EVENT_SIZE), errors: stored(errors, raw.errors, ERROR_SIZE) }
    }

    /// The answer, and the words that hold its events and its errors.
    pub(crate) fn parts(&self) -> (RawAnswer, &'b [u32], &'b [u32]) {
        (self.raw, self.events, self.errors)
    }

    /// Why the text or the list was refused; none if it was not.
    pub fn refusal(&self) -> Option<Refusal> {
        Refusal::answered(self.raw.refusal)
    }

    /// Where it was refused: see [`Refusal`]. 0 if it was not.
    pub fn place(&self) -> usize {
        self.raw.place
    }

    /// How many events there are, whether they fit or not.
    pub fn event_count(&self) -> usize {
        self.raw.events
    }

    /// How many errors there are, whether they fit or not.
    pub fn error_count(&self) -> usize {
        self.raw.errors
    }

    /// The events, or the first of them if they do not all fit.
    pub fn events(&self) -> Stored<'b, Event> {
        Stored::new(self.events, EVENT_SIZE, Event::read)
    }

    /// The errors, or the first of them if they do not all fit.
    pub fn errors(&self) -> Stored<'b, ParseError> {
        Stored::new(self.errors, ERROR_SIZE, ParseError::read)
    }

    /// The events of a table: those from its header's open event up to the next header or the end. None that the buffer does not hold.
    pub fn events_of(&self, header: &Header) -> Stored<'b, Event> {
        let held = self.events.len() / EVENT_SIZE;
        let Range { start, end } = header.events();
        let words = EVENT_SIZE * start.min(held)..EVENT_SIZE * end.min(held);
        Stored::new(&self.events[words], EVENT_SIZE, Event::read)
    }

    /// The index of a quiet run: its table headers, in order. [`Refusal::NotQuiet`] if the run is not quiet.
    ///
    /// ```
    /// use deckmarten::{Refusal, Room};
    ///
    /// let text = "[jobs.main]\nledger = 'main.db'\n[[jobs.main.copies]]\nhost = 'b'\n";
    /// let mut room = Room::new();
    /// let answer = room.parse_text(text.as_bytes());
    /// let index = answer.index()?;
    /// let headers: Vec<_> = index.headers().map(|header| (header.key_parts(), header.is_array_table(), header.events())).collect();
    /// assert_eq!(headers, [(2, false, 0..12), (3, true, 12..26)]);
    ///
    /// // an unclosed header: nothing is listed that could be taken for a table
    /// assert_eq!(room.parse_text(b"[jobs.main").index().unwrap_err(), Refusal::NotQuiet);
    /// # Ok::<(), Refusal>(())
    /// ```
    pub fn index(&self) -> Result<Index<'b>, Refusal> {
        Index::of(self.raw, self.events)
    }

    /// Writes the index of a quiet run to a lent buffer. A refusal, [`Refusal::NotQuiet`] or [`Refusal::Index`], leaves it untouched.
    pub fn index_into(&self, index: &mut [u8]) -> Indexed {
        Indexed::new(foreign::index(self.raw, self.events, index))
    }

    /// Whether the run was quiet: not refused, no error, and no event of empty span. The library answers it, by a function that is proved.
    ///
    /// A run whose buffers were too small is refused, so it is not quiet. To count errors is not enough: `[=` and a newline give none.
    /// Of a text, and of a document with one Eof, which is last, and without adjacent Whitespace, quiet means that it fits the token
    /// grammar; [`text_fits`](crate::text_fits) and [`fits`](crate::fits) ask all of that at once, and say what it does not promise.
    #[must_use]
    pub fn is_quiet(&self) -> bool {
        foreign::is_quiet(self.raw, self.events)
    }
}

/// What a run over a text answers: an [`Answer`], and the records that the text was cut into.
///
/// Spans count from the text's first byte, whatever the base, so `&text[event.span.range()]` is what an event stands for.
#[derive(Clone, Copy, Debug)]
#[must_use]
pub struct TextAnswer<'b> {
    answer: Answer<'b>,
    base: u32,
    record_count: usize,
    records: &'b [u8],
}

impl<'b> TextAnswer<'b> {
    pub(crate) fn new(raw: RawTextAnswer, records: &'b [u8], events: &'b [u32], errors: &'b [u32]) -> TextAnswer<'b> {
        let run = RawAnswer { refusal: raw.refusal, place: raw.place, events: raw.events, errors: raw.errors };
        let answer = Answer::new(run, events, errors);
        let written = if answer.refusal() == Some(Refusal::Tokens) { 0 } else { raw.records };
        TextAnswer { answer, base: raw.base, record_count: raw.records, records: stored(records, written, RECORD_SIZE) }
    }

    /// Where the first token starts: 3 behind a byte order mark, else 0. 0 if no record was written.
    pub fn base(&self) -> u32 {
        self.base
    }

    /// How many records the text has, also where there is no room for them. 0 if it is too long or not UTF-8.
    pub fn record_count(&self) -> usize {
        self.record_count
    }

    /// Where it was refused, as a byte of the text: the place itself, or where the record of that number starts. 0 if it was not.
    pub fn byte(&self) -> usize {
        Refused::answered(self.answer.raw.refusal, self.answer.raw.place)
            .map_or(0, |refused| refused.byte(self.base, self.records))
    }

    /// The bytes of the records that were written: of all of them, or none.
    pub fn records(&self) -> &'b [u8] {
        self.records
    }
}

impl<'b> Deref for TextAnswer<'b> {
    type Target = Answer<'b>;

    fn deref(&self) -> &Answer<'b> {
        &self.answer
    }
}
