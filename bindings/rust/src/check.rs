//! The check of a text: a document, or trouble.

use alloc::vec;
use alloc::vec::Vec;
use core::fmt;

use crate::foreign::{self, RawAnswer};
use crate::limits::{enough_error_words, enough_event_words, enough_mistake_words, enough_records, EVENT_SIZE, MAX_RECORDS};
use crate::text::record_bytes;
use crate::{Event, Header, Index, Mistakes, Refused, Span, Stored};

/// A text that fits the token grammar, with its events. Only [`check`] makes one.
///
/// Its events lie end to end, from the first byte behind a byte order mark to the last, and none is empty.
#[derive(Clone, Debug)]
pub struct Document<'t> {
    text: &'t [u8],
    answer: RawAnswer,
    events: Vec<u32>,
}

impl<'t> Document<'t> {
    /// The text.
    pub fn text(&self) -> &'t [u8] {
        self.text
    }

    /// The events, in the order of the text.
    pub fn events(&self) -> Stored<'_, Event> {
        Stored::new(&self.events, EVENT_SIZE, Event::read)
    }

    /// The piece of the text that a span of this document stands for. Empty if it is another text's and not in this one.
    pub fn piece(&self, span: Span) -> &'t str {
        let bytes = self.text.get(span.range()).unwrap_or_default();
        core::str::from_utf8(bytes).unwrap_or_default()
    }

    /// The index of its table headers.
    pub fn index(&self) -> Index<'_> {
        Index::of(self.answer, &self.events).expect("the run of a text that fits is quiet")
    }

    /// The events of a table: those from its header's open event up to the next header or the end.
    pub fn events_of(&self, header: &Header) -> Stored<'_, Event> {
        let held = self.events.len() / EVENT_SIZE;
        let events = header.events();
        let words = EVENT_SIZE * events.start.min(held)..EVENT_SIZE * events.end.min(held);
        Stored::new(&self.events[words], EVENT_SIZE, Event::read)
    }
}

/// Why a text is no [`Document`].
#[derive(Clone, Debug, PartialEq, Eq)]
pub enum Trouble {
    /// It was not judged: too long, not UTF-8, or beyond the limits.
    Refused {
        /// Why, and where by the library's numbers.
        refused: Refused,
        /// Where, as a byte of the text, from 0.
        byte: usize,
    },
    /// It was judged, and has these mistakes.
    Mistakes(Mistakes),
}

impl fmt::Display for Trouble {
    fn fmt(&self, f: &mut fmt::Formatter<'_>) -> fmt::Result {
        match self {
            Trouble::Refused { refused, byte } => write!(f, "not judged: {}, at byte {byte}", refused.refusal),
            Trouble::Mistakes(mistakes) if mistakes.count() == 1 => f.write_str("1 mistake"),
            Trouble::Mistakes(mistakes) => write!(f, "{} mistakes", mistakes.count()),
        }
    }
}

impl core::error::Error for Trouble {}

/// Whether the text is a document: `Ok` exactly if it is UTF-8, within the limits, and its tokens fit the token grammar (docs/ASKED.md). Else all its mistakes, or why
/// it was not judged. One call of the library decides, and it is proved of it. The text is read in brace mode ([`Mode::Brace`](crate::Mode::Brace)): a comma that is
/// blamed stands behind the `{` of its table.
///
/// `Ok` does not judge what is inside a token: strings that are never closed, a lone carriage return as a line's end, escapes, numbers, dates,
/// bare keys, and keys defined twice all pass (docs/USING.md).
///
/// ```
/// use deckmarten::{check, EventKind, Trouble};
///
/// let document = check(b"[jobs.main]\nledger = \"main.db\"\n")?;
/// let header = document.index().find(document.text(), "jobs.main").unwrap();
/// let value = document.events_of(&header).find(|event| event.kind == EventKind::Scalar).unwrap();
/// assert_eq!(document.piece(value.span), "\"main.db\"");
///
/// // the Rust reports no error here
/// let Err(Trouble::Mistakes(mistakes)) = check(b"[=ledger]\n") else { panic!() };
/// let shown: Vec<String> = mistakes.iter().map(|mistake| mistake.to_string()).collect();
/// assert_eq!(shown, ["line 1: key missing at 1..1, expected key", "line 1: text skipped at 1..9"]);
///
/// // a string that is never closed takes the rest of the text, and it fits
/// assert!(check(b"a = '''\n[jobs.main]\n").is_ok());
///
/// let trouble = check(b"a = '\xff'").unwrap_err();
/// assert_eq!(trouble.to_string(), "not judged: a text that is not UTF-8, at byte 5");
/// # Ok::<(), Trouble>(())
/// ```
pub fn check(text: &[u8]) -> Result<Document<'_>, Trouble> {
    // a text of more records is refused before anything is stored for them
    let count = enough_records(text.len()).min(MAX_RECORDS);
    let (mut records, mut events) = (vec![0; record_bytes(text)], vec![0; enough_event_words(count)]);
    let (mut errors, mut mistakes) = (vec![0; enough_error_words(count)], vec![0; enough_mistake_words(count)]);
    let raw = foreign::check_text(text, &mut records, &mut events, &mut errors, &mut mistakes);
    if let Some(refused) = Refused::answered(raw.refusal, raw.place) {
        return Err(Trouble::Refused { refused, byte: refused.byte(raw.base, &records) });
    }
    match Mistakes::new(mistakes, raw.mistakes) {
        Some(mistakes) => Err(Trouble::Mistakes(mistakes)),
        None => {
            events.truncate(EVENT_SIZE * raw.events);
            events.shrink_to_fit();
            let answer = RawAnswer { refusal: raw.refusal, place: raw.place, events: raw.events, errors: raw.errors };
            Ok(Document { text, answer, events })
        }
    }
}
