//! A text that can be lexed.

use super::lexer::Lexer;

/// A text.
#[derive(Clone, Copy, Debug)]
pub struct Source<'i> {
    input: &'i str,
}

impl<'i> Source<'i> {
    /// This text.
    pub const fn new(input: &'i str) -> Source<'i> {
        Source { input }
    }

    /// The text itself.
    pub const fn input(&self) -> &'i str {
        self.input
    }

    /// Its tokens, one after the other.
    pub fn lex(&self) -> Lexer<'i> {
        Lexer::new(self.input)
    }
}
