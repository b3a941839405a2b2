//! The four entries over records, and the one over tokens, over lent buffers.

use crate::foreign;
use crate::{Answer, Options, Token};

/// Where reading begins: what the list is taken to be.
#[derive(Clone, Copy, Debug, PartialEq, Eq, Hash)]
#[non_exhaustive]
pub enum Entry {
    /// A whole document.
    Document,
    /// A key with its dots.
    Key,
    /// One part of a key.
    SimpleKey,
    /// A value.
    Value,
}

impl Entry {
    /// All four.
    pub const ALL: [Entry; 4] = [Entry::Document, Entry::Key, Entry::SimpleKey, Entry::Value];

    /// Reads the records, of which the first token starts at `base`, and leaves events and errors in the buffers. Any records, base
    /// and buffers may be given: what is wrong with them is a refusal in the answer. Words that hold no entry keep what they held.
    pub fn parse<'b>(
        self,
        records: &[u8],
        base: u32,
        options: Options,
        events: &'b mut [u32],
        errors: &'b mut [u32],
    ) -> Answer<'b> {
        let raw = foreign::call(self, records, base, options, events, errors);
        Answer::new(raw, events, errors)
    }
}

/// Reads a document: [`Entry::parse`] of [`Entry::Document`].
///
/// ```
/// use deckmarten::{parse_document, Options, Refusal};
///
/// // `a`, `=`, `1` and the end give three events; here is room for two
/// let records = [1, 0, 0, 0, 15, 0, 1, 0, 0, 0, 2, 0, 1, 0, 0, 0, 15, 0, 0, 0, 0, 0, 16, 0];
/// let (mut events, mut errors) = ([0; 8], [0; 0]);
/// let answer = parse_document(&records, 0, Options::default(), &mut events, &mut errors);
/// assert_eq!(answer.refusal(), Some(Refusal::Events));
/// assert_eq!((answer.event_count(), answer.events().len()), (3, 2));
/// assert!(!answer.is_quiet());
/// ```
pub fn parse_document<'b>(
    records: &[u8],
    base: u32,
    options: Options,
    events: &'b mut [u32],
    errors: &'b mut [u32],
) -> Answer<'b> {
    Entry::Document.parse(records, base, options, events, errors)
}

/// Reads a key with its dots: [`Entry::parse`] of [`Entry::Key`].
pub fn parse_key<'b>(records: &[u8], base: u32, options: Options, events: &'b mut [u32], errors: &'b mut [u32]) -> Answer<'b> {
    Entry::Key.parse(records, base, options, events, errors)
}

/// Reads one part of a key: [`Entry::parse`] of [`Entry::SimpleKey`].
pub fn parse_simple_key<'b>(
    records: &[u8],
    base: u32,
    options: Options,
    events: &'b mut [u32],
    errors: &'b mut [u32],
) -> Answer<'b> {
    Entry::SimpleKey.parse(records, base, options, events, errors)
}

/// Reads a value: [`Entry::parse`] of [`Entry::Value`].
pub fn parse_value<'b>(records: &[u8], base: u32, options: Options, events: &'b mut [u32], errors: &'b mut [u32]) -> Answer<'b> {
    Entry::Value.parse(records, base, options, events, errors)
}

/// Reads a document from tokens: what it answers and leaves is what [`parse_document`] does for their records.
///
/// Each call clears 384 KiB of stack, in which the library makes the records: four tokens take 5.3 microseconds, their records at
/// [`parse_document`] 58 nanoseconds (on an aarch64 machine; docs/USING.md). A stack of 256 KiB is too little, and a signal ends the
/// program; 512 KiB are enough.
///
/// ```
/// use deckmarten::{parse_tokens, Options, Token, TokenKind::*};
///
/// let tokens = [Token::new(Atom, 4), Token::new(Equals, 1), Token::new(BasicString, 9), Token::new(Eof, 0)];
/// let (mut events, mut errors) = ([0; 12], [0; 0]);
/// assert!(parse_tokens(&tokens, 0, Options::default(), &mut events, &mut errors).is_quiet());
/// ```
pub fn parse_tokens<'b>(
    tokens: &[Token],
    base: u32,
    options: Options,
    events: &'b mut [u32],
    errors: &'b mut [u32],
) -> Answer<'b> {
    let raw = foreign::call_with_tokens(tokens, base, options, events, errors);
    Answer::new(raw, events, errors)
}
