//! Stand-in for toml_parser's `Source`: a text that can be lexed.
//!
//! Taken for granted: `Source::new(text).lex()` is `Lexer::new` over the whole text.

use crate::lexer::Lexer;

/// A text.
#[derive(Copy, Clone, Debug)]
pub struct Source<'i> {
    input: &'i str,
}

impl<'i> Source<'i> {
    /// This text.
    pub fn new(input: &'i str) -> Self {
        Self { input }
    }

    /// Its tokens, one after the other.
    pub fn lex(&self) -> Lexer<'i> {
        Lexer::new(self.input)
    }
}
