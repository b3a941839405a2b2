//! Stand-ins for toml_parser's `ErrorSink`, `Expected` and `ParseError`.
//!
//! Taken for granted: an error is a text with a context, a list of what was
//! expected and an unexpected place, each put in by its `with_` function and
//! otherwise absent; the sink takes errors in the order they are reported.

use crate::Span;

/// Takes the errors as they are reported.
pub trait ErrorSink {
    /// Takes one error.
    fn report_error(&mut self, error: ParseError);
}

/// One of the things that would have been right.
#[derive(Copy, Clone, PartialEq, Eq, Debug)]
pub enum Expected {
    /// This very text.
    Literal(&'static str),
    /// Something of this description.
    Description(&'static str),
}

/// What went wrong and where.
#[derive(Clone, PartialEq, Eq, Debug)]
pub struct ParseError {
    description: &'static str,
    context: Option<Span>,
    expected: Option<&'static [Expected]>,
    unexpected: Option<Span>,
}

impl ParseError {
    /// An error with this text and nothing else.
    pub fn new(description: &'static str) -> Self {
        Self {
            description,
            context: None,
            expected: None,
            unexpected: None,
        }
    }

    /// The same with a context.
    #[must_use]
    pub fn with_context(mut self, context: Span) -> Self {
        self.context = Some(context);
        self
    }

    /// The same with what was expected.
    #[must_use]
    pub fn with_expected(mut self, expected: &'static [Expected]) -> Self {
        self.expected = Some(expected);
        self
    }

    /// The same with the unexpected place.
    #[must_use]
    pub fn with_unexpected(mut self, unexpected: Span) -> Self {
        self.unexpected = Some(unexpected);
        self
    }

    /// Its text.
    pub fn description(&self) -> &'static str {
        self.description
    }

    /// Its context, if it was given one.
    pub fn context(&self) -> Option<Span> {
        self.context
    }

    /// What was expected, if that was given.
    pub fn expected(&self) -> Option<&'static [Expected]> {
        self.expected
    }

    /// The unexpected place, if it was given one.
    pub fn unexpected(&self) -> Option<Span> {
        self.unexpected
    }
}
