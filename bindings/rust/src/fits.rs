//! Yes or no: whether a text, or a list of records, is a document.

use alloc::vec;
use alloc::vec::Vec;
use core::fmt;

use crate::foreign::{self, RawVerdict};
use crate::limits::{enough_records, EVENT_SIZE, MAX_RECORDS, RECORD_SIZE};
use crate::text::record_bytes;
use crate::Refused;

/// Whether a text or a list fits the token grammar. Only [`Fits`](Verdict::Fits) is yes.
#[derive(Clone, Copy, Debug, PartialEq, Eq, Hash)]
#[must_use]
pub enum Verdict {
    /// It fits: nothing was refused, skipped, invented or left over.
    Fits,
    /// It was judged, and does not fit.
    DoesNotFit,
    /// It was not judged.
    Refused(Refused),
}

impl Verdict {
    fn new(raw: RawVerdict) -> Verdict {
        match Refused::answered(raw.refusal, raw.place) {
            Some(refused) => Verdict::Refused(refused),
            None if raw.fits => Verdict::Fits,
            None => Verdict::DoesNotFit,
        }
    }

    /// Whether it is [`Fits`](Verdict::Fits).
    #[must_use]
    pub const fn is_yes(self) -> bool {
        matches!(self, Verdict::Fits)
    }
}

impl fmt::Display for Verdict {
    fn fmt(&self, f: &mut fmt::Formatter<'_>) -> fmt::Result {
        match self {
            Verdict::Fits => f.pad("fits"),
            Verdict::DoesNotFit => f.pad("does not fit"),
            Verdict::Refused(refused) => write!(f, "refused: {refused}"),
        }
    }
}

/// Words for one event a record, which is enough for a verdict. A longer list is refused before anything is stored.
fn one_event_each(records: usize) -> Vec<u32> {
    vec![0; EVENT_SIZE * records.min(MAX_RECORDS)]
}

/// Whether the text is a document: UTF-8, within the limits, and its tokens fit the token grammar (docs/ASKED.md). It is proved that the answer
/// is yes exactly then.
///
/// A yes does not judge what is inside a token: strings that are never closed, a lone carriage return as a line's end, escapes, numbers, dates,
/// bare keys, and keys defined twice all pass (docs/USING.md).
///
/// ```
/// use deckmarten::{text_fits, Refusal, Verdict};
///
/// assert!(text_fits(b"[jobs.main]\nledger = \"main.db\"\n").is_yes());
/// // no error is reported, but a key was invented
/// assert_eq!(text_fits(b"[=ledger]\n"), Verdict::DoesNotFit);
/// // a string that is never closed takes the rest of the text, and it fits
/// assert!(text_fits(b"a = '''\n[jobs.main]\n").is_yes());
/// // what is not UTF-8 is not judged
/// let Verdict::Refused(refused) = text_fits(b"a = '\xff'") else { panic!() };
/// assert_eq!((refused.refusal, refused.place), (Refusal::NotUtf8, 5));
/// ```
pub fn text_fits(text: &[u8]) -> Verdict {
    let mut records = vec![0; record_bytes(text)];
    let mut events = one_event_each(enough_records(text.len()));
    Verdict::new(foreign::text_fits(text, &mut records, &mut events))
}

/// Whether the records are a document: a list that is regular, within the limits, and fits the token grammar (docs/ASKED.md). It is proved that
/// the answer is yes exactly then. What is inside a token is not judged: a record has no text.
///
/// ```
/// use deckmarten::{fits, Records, Token, TokenKind::*};
///
/// let document = |kinds: &[_]| -> Records { kinds.iter().map(|kind| Token::new(*kind, 1)).chain([Token::new(Eof, 0)]).collect() };
/// assert!(fits(document(&[Atom, Equals, Atom, Newline]).as_bytes(), 0).is_yes());
/// // `[=` and a newline: no error is reported, but it is no document
/// assert!(!fits(document(&[LeftSquareBracket, Equals, Newline]).as_bytes(), 0).is_yes());
/// // without its Eof a list may have been cut
/// assert!(!fits(&document(&[Atom, Equals, Atom, Newline]).as_bytes()[..24], 0).is_yes());
/// ```
pub fn fits(records: &[u8], base: u32) -> Verdict {
    let mut events = one_event_each(records.len() / RECORD_SIZE);
    Verdict::new(foreign::fits(records, base, &mut events))
}

/// Whether the list has one Eof, as its last token, and no two Whitespace tokens in a row. A text's records are so; [`fits`] says no to
/// other lists.
#[must_use]
pub fn is_regular(records: &[u8]) -> bool {
    foreign::is_regular(records)
}
