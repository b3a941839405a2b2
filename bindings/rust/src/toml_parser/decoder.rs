//! How a key part or a scalar is quoted.

pub use crate::Encoding;

use super::lexer::TokenKind;

impl Encoding {
    /// The name that reports use: that of the token.
    pub const fn description(&self) -> &'static str {
        match self {
            Encoding::LiteralString => TokenKind::LiteralString.description(),
            Encoding::BasicString => TokenKind::BasicString.description(),
            Encoding::MlLiteralString => TokenKind::MlLiteralString.description(),
            Encoding::MlBasicString => TokenKind::MlBasicString.description(),
        }
    }
}
