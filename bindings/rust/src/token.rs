//! Tokens, and the records that hand them to the library.

use alloc::vec::Vec;
use core::iter::FusedIterator;

use crate::limits::RECORD_SIZE;
use crate::numbered::numbered;

numbered! {
    /// The kind of a token. `Display` prints what the token is.
    #[repr(u16)]
    TokenKind {
        /// One byte.
        Dot = 1 => "`.`",
        /// One byte.
        Equals = 2 => "`=`",
        /// One byte.
        Comma = 3 => "`,`",
        /// One byte.
        LeftSquareBracket = 4 => "`[`",
        /// One byte.
        RightSquareBracket = 5 => "`]`",
        /// One byte.
        LeftCurlyBracket = 6 => "`{`",
        /// One byte.
        RightCurlyBracket = 7 => "`}`",
        /// Spaces and tabs.
        Whitespace = 8 => "whitespace",
        /// `#` and what follows it, without the line's end.
        Comment = 9 => "comment",
        /// The line's end.
        Newline = 10 => "newline",
        /// `'..'`
        LiteralString = 11 => "literal string",
        /// `".."`
        BasicString = 12 => "basic string",
        /// `'''..'''`
        MlLiteralString = 13 => "multi-line literal string",
        /// `""".."""`
        MlBasicString = 14 => "multi-line basic string",
        /// A run of other bytes: a bare key, a number, a date, a word.
        Atom = 15 => "unquoted text",
        /// No byte.
        Eof = 16 => "end of the text",
    }
}

/// A token: its kind, and how many bytes of the text it takes. In memory it is `struct deckmarten_token` of include/deckmarten.h.
#[derive(Clone, Copy, Debug, PartialEq, Eq, Hash)]
#[repr(C)]
pub struct Token {
    /// How many bytes it has: 0 for Eof, 1 for the kinds of one byte, at least 1 for the others.
    pub length: u32,
    /// What it is.
    pub kind: TokenKind,
}

impl Token {
    /// A token of this kind and length.
    pub const fn new(kind: TokenKind, length: u32) -> Token {
        Token { kind, length }
    }

    /// Its record: the length in 4 bytes, then the kind in 2, both least byte first.
    pub const fn record(self) -> [u8; RECORD_SIZE] {
        let [a, b, c, d] = self.length.to_le_bytes();
        let [kind, ..] = self.kind.number().to_le_bytes();
        [a, b, c, d, kind, 0]
    }

    /// The token of a record that this crate or the library wrote.
    fn read(record: &[u8]) -> Token {
        let number = u16::from_le_bytes([record[4], record[5]]);
        let kind = TokenKind::from_number(number.into()).expect("a token has a kind of 1 to 16");
        Token::new(kind, u32::from_le_bytes([record[0], record[1], record[2], record[3]]))
    }
}

/// A list of token records, in the order of the text.
///
/// A length that is wrong for its kind is taken here. The library refuses it with [`Refusal::Length`](crate::Refusal::Length).
///
/// ```
/// use deckmarten::{Records, Token, TokenKind};
///
/// let mut records = Records::new();
/// records.push(Token::new(TokenKind::Atom, 4));
/// records.push(Token::new(TokenKind::Eof, 0));
/// assert_eq!(records.as_bytes(), [4, 0, 0, 0, 15, 0, 0, 0, 0, 0, 16, 0]);
/// ```
#[derive(Clone, Debug, Default, PartialEq, Eq, Hash)]
pub struct Records {
    bytes: Vec<u8>,
}

impl Records {
    /// An empty list.
    pub fn new() -> Records {
        Records::default()
    }

    /// An empty list with room for so many records before it grows.
    pub fn with_capacity(records: usize) -> Records {
        Records { bytes: Vec::with_capacity(RECORD_SIZE * records) }
    }

    /// Removes all records, and keeps the room for others.
    pub fn clear(&mut self) {
        self.bytes.clear();
    }

    /// Adds a token at the end.
    pub fn push(&mut self, token: Token) {
        self.bytes.extend_from_slice(&token.record());
    }

    /// How many records there are.
    pub fn count(&self) -> usize {
        self.bytes.len() / RECORD_SIZE
    }

    /// Records that the library wrote.
    pub(crate) fn from_bytes(bytes: Vec<u8>) -> Records {
        Records { bytes }
    }

    /// The lengths in the bytes of records.
    pub(crate) fn lengths(bytes: &[u8]) -> impl Iterator<Item = u32> + '_ {
        bytes.chunks_exact(RECORD_SIZE).map(|record| u32::from_le_bytes([record[0], record[1], record[2], record[3]]))
    }

    /// The tokens, in the order of the text; from both ends.
    pub fn iter(&self) -> impl DoubleEndedIterator<Item = Token> + ExactSizeIterator + FusedIterator + Clone + '_ {
        self.bytes.chunks_exact(RECORD_SIZE).map(Token::read)
    }

    /// The bytes that the library reads.
    pub fn as_bytes(&self) -> &[u8] {
        &self.bytes
    }
}

impl Extend<Token> for Records {
    fn extend<I: IntoIterator<Item = Token>>(&mut self, tokens: I) {
        let tokens = tokens.into_iter();
        self.bytes.reserve(RECORD_SIZE.saturating_mul(tokens.size_hint().0));
        tokens.for_each(|token| self.push(token));
    }
}

impl FromIterator<Token> for Records {
    fn from_iter<I: IntoIterator<Item = Token>>(tokens: I) -> Records {
        let mut records = Records::new();
        records.extend(tokens);
        records
    }
}
