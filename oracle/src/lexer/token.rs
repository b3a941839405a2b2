//! Stand-in for toml_parser's `lexer::{Token, TokenKind}`, which mod.rs takes from
//! the file of this name.
//!
//! Taken for granted: a token is a kind and a span, copied freely; the sixteen
//! kinds; only the four string kinds have an encoding. Of the descriptions only
//! those of the string kinds are ever asked for.

use crate::decoder::Encoding;
use crate::Span;

/// The kinds with the numbers that document 01 gives them in a token record.
#[derive(Copy, Clone, PartialEq, Eq, Debug)]
#[repr(u16)]
pub enum TokenKind {
    Dot = 1,
    Equals,
    Comma,
    LeftSquareBracket,
    RightSquareBracket,
    LeftCurlyBracket,
    RightCurlyBracket,
    Whitespace,
    Comment,
    Newline,
    LiteralString,
    BasicString,
    MlLiteralString,
    MlBasicString,
    Atom,
    Eof,
}

/// All kinds, the one numbered n at place n - 1.
const KINDS: [TokenKind; 16] = [
    TokenKind::Dot,
    TokenKind::Equals,
    TokenKind::Comma,
    TokenKind::LeftSquareBracket,
    TokenKind::RightSquareBracket,
    TokenKind::LeftCurlyBracket,
    TokenKind::RightCurlyBracket,
    TokenKind::Whitespace,
    TokenKind::Comment,
    TokenKind::Newline,
    TokenKind::LiteralString,
    TokenKind::BasicString,
    TokenKind::MlLiteralString,
    TokenKind::MlBasicString,
    TokenKind::Atom,
    TokenKind::Eof,
];

impl TokenKind {
    /// The kind with this number, if there is one. Not in the original.
    pub fn from_number(number: u16) -> Option<Self> {
        let index = usize::from(number).checked_sub(1)?;
        KINDS.get(index).copied()
    }

    /// Its number in a token record. Not in the original.
    pub fn number(self) -> u16 {
        self as u16
    }

    /// The name used in messages.
    pub const fn description(&self) -> &'static str {
        match self {
            Self::LiteralString => "literal string",
            Self::BasicString => "basic string",
            Self::MlLiteralString => "multi-line literal string",
            Self::MlBasicString => "multi-line basic string",
            _ => panic!("the oracle has descriptions of strings only"),
        }
    }

    /// How a token of this kind is quoted, if it is.
    pub const fn encoding(&self) -> Option<Encoding> {
        match self {
            Self::LiteralString => Some(Encoding::LiteralString),
            Self::BasicString => Some(Encoding::BasicString),
            Self::MlLiteralString => Some(Encoding::MlLiteralString),
            Self::MlBasicString => Some(Encoding::MlBasicString),
            _ => None,
        }
    }
}

/// A token: its kind and where it lies.
#[derive(Copy, Clone, PartialEq, Eq, Debug)]
pub struct Token {
    kind: TokenKind,
    span: Span,
}

impl Token {
    /// A token of this kind at this place.
    pub fn new(kind: TokenKind, span: Span) -> Self {
        Self { kind, span }
    }

    /// Its kind.
    pub fn kind(&self) -> TokenKind {
        self.kind
    }

    /// Where it lies.
    pub fn span(&self) -> Span {
        self.span
    }
}

#[cfg(test)]
mod tests {
    use super::*;

    #[test]
    fn numbers_go_there_and_back() {
        for number in 1..=16 {
            assert_eq!(TokenKind::from_number(number).unwrap().number(), number);
        }
        assert_eq!(TokenKind::from_number(0), None);
        assert_eq!(TokenKind::from_number(17), None);
    }

    #[test]
    fn only_strings_have_an_encoding() {
        for kind in KINDS {
            let is_string = (11..=14).contains(&kind.number());
            assert_eq!(kind.encoding().is_some(), is_string);
            if let Some(encoding) = kind.encoding() {
                assert_eq!(encoding.description(), kind.description());
            }
        }
    }
}
