//! Stand-in for toml_parser's `decoder::Encoding`: how a key or scalar is quoted.
//!
//! Taken for granted: four cases, and that the description of each is that of the
//! token kind of the same name.

use crate::lexer::TokenKind;

/// The four ways of quoting.
#[derive(Copy, Clone, PartialEq, Eq, Debug)]
pub enum Encoding {
    LiteralString,
    BasicString,
    MlLiteralString,
    MlBasicString,
}

impl Encoding {
    /// The name used in messages.
    pub const fn description(&self) -> &'static str {
        match self {
            Self::LiteralString => TokenKind::LiteralString.description(),
            Self::BasicString => TokenKind::BasicString.description(),
            Self::MlLiteralString => TokenKind::MlLiteralString.description(),
            Self::MlBasicString => TokenKind::MlBasicString.description(),
        }
    }
}
