//! Texts: their tokens, and the whole way to events.

use alloc::vec;

use crate::foreign;
use crate::limits::{enough_records, MAX_BYTES, RECORD_SIZE};
use crate::{Options, Records, Refused, Span, TextAnswer, Token};

/// Bytes that the records of this text may need. A text that is too long is refused before anything is stored.
pub(crate) fn record_bytes(text: &[u8]) -> usize {
    if text.len() > MAX_BYTES as usize {
        0
    } else {
        RECORD_SIZE * enough_records(text.len())
    }
}

/// A text's token records, and where its first token starts.
#[derive(Clone, Debug, PartialEq, Eq, Hash)]
#[non_exhaustive]
pub struct Lexed {
    /// Where the first token starts: 3 behind a byte order mark, else 0.
    pub base: u32,
    /// The records, the last of which is the Eof.
    pub records: Records,
}

impl Lexed {
    /// The tokens, each with its place in the text.
    pub fn tokens(&self) -> impl Iterator<Item = (Token, Span)> + '_ {
        self.records.iter().scan(self.base, |end, token| {
            let start = *end;
            *end += token.length;
            Some((token, Span { start, end: *end }))
        })
    }
}

/// Cuts a text into tokens, as the lexer of the Rust crate toml_parser does. Any bytes may be given; a text that is too long or not UTF-8 is
/// refused.
///
/// ```
/// use deckmarten::{lex, Refusal, TokenKind};
///
/// let text = "\u{feff}a = 'b'".as_bytes();
/// let lexed = lex(text)?;
/// assert_eq!(lexed.base, 3);
/// let kinds: Vec<TokenKind> = lexed.tokens().map(|(token, _)| token.kind).collect();
/// use TokenKind::*;
/// assert_eq!(kinds, [Atom, Whitespace, Equals, Whitespace, LiteralString, Eof]);
/// let (_, place) = lexed.tokens().nth(4).unwrap();
/// assert_eq!(&text[place.range()], b"'b'");
///
/// let refused = lex(b"a = '\xff'").unwrap_err();
/// assert_eq!((refused.refusal, refused.place), (Refusal::NotUtf8, 5));
/// # Ok::<(), deckmarten::Refused>(())
/// ```
pub fn lex(text: &[u8]) -> Result<Lexed, Refused> {
    let mut bytes = vec![0; record_bytes(text)];
    let raw = foreign::lex(text, &mut bytes);
    match Refused::answered(raw.refusal, raw.place) {
        Some(refused) => Err(refused),
        None => {
            bytes.truncate(RECORD_SIZE * raw.records);
            bytes.shrink_to_fit();
            Ok(Lexed { base: raw.base, records: Records::from_bytes(bytes) })
        }
    }
}

/// Reads a text as a document, over lent buffers: its records, its events and its errors. Any text and buffers may be given: what is
/// wrong with them is a refusal in the answer. Words and bytes that hold no entry keep what they held. [`Room::parse_text`](crate::Room::parse_text)
/// has the buffers at hand.
///
/// ```
/// use deckmarten::{parse_text, Options, Refusal};
///
/// // `a`, `=`, `1` and the end are four records; here is room for three
/// let (mut records, mut events, mut errors) = ([0; 18], [0; 12], [0; 0]);
/// let answer = parse_text(b"a=1", Options::default(), &mut records, &mut events, &mut errors);
/// assert_eq!(answer.refusal(), Some(Refusal::Tokens));
/// assert!(!answer.is_quiet());
/// ```
pub fn parse_text<'b>(
    text: &[u8],
    options: Options,
    records: &'b mut [u8],
    events: &'b mut [u32],
    errors: &'b mut [u32],
) -> TextAnswer<'b> {
    let raw = foreign::parse_text(text, options, records, events, errors);
    TextAnswer::new(raw, records, events, errors)
}
