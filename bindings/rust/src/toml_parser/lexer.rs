//! Tokens, and the lexer.

use alloc::vec::Vec;
use core::iter::FusedIterator;
use core::marker::PhantomData;

use super::decoder::Encoding;
use super::Span;
pub use crate::TokenKind;

impl TokenKind {
    /// The name that reports use.
    pub const fn description(&self) -> &'static str {
        self.text()
    }

    /// How a token of this kind is quoted, if it is.
    pub const fn encoding(&self) -> Option<Encoding> {
        match self {
            TokenKind::LiteralString => Some(Encoding::LiteralString),
            TokenKind::BasicString => Some(Encoding::BasicString),
            TokenKind::MlLiteralString => Some(Encoding::MlLiteralString),
            TokenKind::MlBasicString => Some(Encoding::MlBasicString),
            _ => None,
        }
    }
}

/// A token: its kind, and where it lies.
#[derive(Clone, Copy, Debug, PartialEq, Eq, Hash)]
pub struct Token {
    kind: TokenKind,
    span: Span,
}

impl Token {
    /// A token of this kind at this place.
    pub const fn new(kind: TokenKind, span: Span) -> Token {
        Token { kind, span }
    }

    /// Its kind.
    pub const fn kind(&self) -> TokenKind {
        self.kind
    }

    /// Where it lies.
    pub const fn span(&self) -> Span {
        self.span
    }
}

/// The tokens of a text. The whole text is lexed at once, by one call of the library.
#[derive(Clone, Debug)]
pub struct Lexer<'i> {
    tokens: alloc::vec::IntoIter<Token>,
    text: PhantomData<&'i str>,
}

impl Lexer<'_> {
    pub(super) fn new(input: &str) -> Self {
        Lexer { tokens: tokens(input).into_iter(), text: PhantomData }
    }

    /// All of them.
    pub fn into_vec(self) -> Vec<Token> {
        self.tokens.collect()
    }
}

/// The tokens of a text. One that is too long is not lexed: an Atom takes all of it, which the parser refuses.
fn tokens(input: &str) -> Vec<Token> {
    match crate::lex(input.as_bytes()) {
        Ok(lexed) => lexed.tokens().map(|(token, span)| Token::new(token.kind, span.into())).collect(),
        Err(_) => {
            let whole = Span::new_unchecked(0, input.len());
            [Token::new(TokenKind::Atom, whole), Token::new(TokenKind::Eof, whole.after())].into()
        }
    }
}

impl Iterator for Lexer<'_> {
    type Item = Token;

    fn next(&mut self) -> Option<Token> {
        self.tokens.next()
    }

    fn size_hint(&self) -> (usize, Option<usize>) {
        self.tokens.size_hint()
    }
}

impl ExactSizeIterator for Lexer<'_> {}
impl FusedIterator for Lexer<'_> {}
