//! The index of headers: which tables a quiet run has, and where.

use alloc::vec;
use alloc::vec::Vec;
use core::iter::FusedIterator;
use core::ops::Range;

use crate::foreign::{self, RawAnswer, RawIndexed};
use crate::limits::EVENT_SIZE;
use crate::{EventKind, Refusal};

/// What is at a position in an index: its end, an entry, or bytes that are no entry.
const FOUND_NONE: u32 = 0;
const FOUND_HEADER: u32 = 1;
const FOUND_NO_ENTRY: u32 = 2;

/// A table header.
#[derive(Clone, Copy, Debug, PartialEq, Eq, Hash)]
pub struct Header {
    place: usize,
    key_parts: usize,
    is_array_table: bool,
    event_count: usize,
}

impl Header {
    /// How many parts its key has: three in `[a.b.c]`.
    pub const fn key_parts(&self) -> usize {
        self.key_parts
    }

    /// Whether it is the header of an array table, `[[a]]`.
    pub const fn is_array_table(&self) -> bool {
        self.is_array_table
    }

    /// The numbers, from 0, of the table's events: from the header's open event up to the next header or the end.
    /// [`Answer::events_of`](crate::Answer::events_of) takes them.
    pub const fn events(&self) -> Range<usize> {
        self.place..self.place + self.event_count
    }
}

/// The headers in the bytes of an index, in order. It ends at the end of the bytes, or before bytes that are no entry:
/// [`unread`](Headers::unread) says which.
#[derive(Clone, Debug)]
pub struct Headers<'i> {
    bytes: &'i [u8],
    at: usize,
}

/// The headers in the bytes of an index, which may come from a file. Any bytes may be given.
///
/// ```
/// use deckmarten::{headers, Room};
///
/// let mut bytes = Room::new().parse_text(b"[a]\n[[b.c]]\n").index().unwrap().into_bytes();
/// let mut read = headers(&bytes);
/// assert_eq!(read.by_ref().map(|header| header.key_parts()).collect::<Vec<_>>(), [1, 2]);
/// assert!(read.unread().is_empty());
///
/// bytes.pop(); // the second entry is cut
/// let mut read = headers(&bytes);
/// assert_eq!(read.by_ref().count(), 1);
/// assert_eq!(read.unread().len(), 16);
/// ```
pub fn headers(index: &[u8]) -> Headers<'_> {
    Headers { bytes: index, at: 0 }
}

impl<'i> Headers<'i> {
    /// The bytes that were not read. If there is no header left and this is not empty, they begin with what is no entry.
    pub fn unread(&self) -> &'i [u8] {
        &self.bytes[self.at..]
    }
}

impl Iterator for Headers<'_> {
    type Item = Header;

    fn next(&mut self) -> Option<Header> {
        let raw = foreign::header_at(self.bytes, self.at);
        match raw.found {
            FOUND_HEADER => {
                self.at = raw.next;
                Some(Header { place: raw.place, key_parts: raw.parts, is_array_table: raw.array == 1, event_count: raw.events })
            }
            FOUND_NONE | FOUND_NO_ENTRY => None,
            other => unreachable!("what is found is one of 0 to 2, and not {other}"),
        }
    }
}

impl FusedIterator for Headers<'_> {}

/// What comes of an index in a lent buffer.
#[derive(Clone, Copy, Debug, PartialEq, Eq, Hash)]
#[must_use]
#[non_exhaustive]
pub struct Indexed {
    /// Why nothing was written; none if the index was.
    pub refusal: Option<Refusal>,
    /// How many headers the events have, whether they fit or not. 0 if the run is not quiet.
    pub headers: usize,
    /// How many bytes were written, or at [`Refusal::Index`] are needed.
    pub bytes: usize,
}

impl Indexed {
    pub(crate) fn new(raw: RawIndexed) -> Indexed {
        Indexed { refusal: Refusal::answered(raw.refusal), headers: raw.headers, bytes: raw.bytes }
    }
}

/// The table headers of a quiet run, each with the events of its table: [`Answer::index`](crate::Answer::index) makes it. To find one
/// table of many by it takes fewer steps than to look through all events.
#[derive(Clone, Debug)]
pub struct Index<'b> {
    bytes: Vec<u8>,
    events: &'b [u32],
}

impl<'b> Index<'b> {
    pub(crate) fn of(answer: RawAnswer, events: &'b [u32]) -> Result<Index<'b>, Refusal> {
        let mut bytes = Vec::new();
        let mut indexed = foreign::index(answer, events, &mut bytes);
        if Refusal::answered(indexed.refusal) == Some(Refusal::Index) {
            bytes = vec![0; indexed.bytes];
            indexed = foreign::index(answer, events, &mut bytes);
        }
        match Refusal::answered(indexed.refusal) {
            Some(refusal) => Err(refusal),
            None => Ok(Index { bytes, events }),
        }
    }

    /// The bytes, an entry a header (docs/LAYOUT.md).
    pub fn as_bytes(&self) -> &[u8] {
        &self.bytes
    }

    /// The same, to keep. [`headers`] reads them again.
    pub fn into_bytes(self) -> Vec<u8> {
        self.bytes
    }

    /// The headers, in order.
    pub fn headers(&self) -> Headers<'_> {
        headers(&self.bytes)
    }

    /// The first table with this dotted name; `text` is what the run read. **Key parts are compared as they are spelled**: `a.b`, `a."b"` and
    /// `a.'b'` name one table in TOML, and are three spellings here. Whitespace around the dots does not count.
    ///
    /// ```
    /// use deckmarten::{EventKind, Room};
    ///
    /// let text = b"[jobs.main]\nledger = 1\n[ jobs . \"old.db\" ]\nledger = 2\n";
    /// let mut room = Room::new();
    /// let answer = room.parse_text(text);
    /// let index = answer.index()?;
    /// let header = index.find(text, "jobs.\"old.db\"").unwrap();
    /// let value = answer.events_of(&header).find(|event| event.kind == EventKind::Scalar).unwrap();
    /// assert_eq!(&text[value.span.range()], b"2");
    /// assert!(index.find(text, "jobs.'old.db'").is_none());
    /// # Ok::<(), deckmarten::Refusal>(())
    /// ```
    pub fn find(&self, text: &[u8], path: &str) -> Option<Header> {
        self.find_all(text, path).next()
    }

    /// All tables with this dotted name, in order, as those of an array table. Names are compared as in [`find`](Index::find).
    pub fn find_all<'f>(&'f self, text: &'f [u8], path: &'f str) -> impl Iterator<Item = Header> + 'f {
        self.headers().filter(move |header| self.is_spelled(header, text, path.as_bytes()))
    }

    /// Whether the parts of the header's key, with a dot between each two, are the path.
    fn is_spelled(&self, header: &Header, text: &[u8], path: &[u8]) -> bool {
        let (mut rest, mut parts) = (path, 0);
        for event in self.events[EVENT_SIZE * (header.place + 1)..].chunks_exact(EVENT_SIZE) {
            if event[0] != EventKind::SimpleKey.number() {
                continue;
            }
            if parts > 0 {
                let Some(behind) = rest.strip_prefix(b".") else { return false };
                rest = behind;
            }
            let part = text.get(event[2] as usize..event[3] as usize);
            let Some(behind) = part.and_then(|part| rest.strip_prefix(part)) else { return false };
            rest = behind;
            parts += 1;
            if parts == header.key_parts {
                return rest.is_empty();
            }
        }
        false
    }
}
