//! What is reported of mistakes.

use super::Span;

/// Takes the reports.
pub trait ErrorSink {
    /// Takes one report.
    fn report_error(&mut self, error: ParseError);
}

/// One of the things that would have been right.
#[derive(Clone, Copy, Debug, PartialEq, Eq, Hash)]
#[non_exhaustive]
pub enum Expected {
    /// This very text.
    Literal(&'static str),
    /// Something of this description.
    Description(&'static str),
}

/// What went wrong, and where.
#[derive(Clone, Debug, PartialEq, Eq, Hash)]
pub struct ParseError {
    description: &'static str,
    context: Option<Span>,
    expected: Option<&'static [Expected]>,
    unexpected: Option<Span>,
}

impl ParseError {
    /// A report with this text and nothing else.
    pub const fn new(description: &'static str) -> ParseError {
        ParseError { description, context: None, expected: None, unexpected: None }
    }

    /// The same with a context.
    #[must_use]
    pub const fn with_context(mut self, context: Span) -> ParseError {
        self.context = Some(context);
        self
    }

    /// The same with what was expected.
    #[must_use]
    pub const fn with_expected(mut self, expected: &'static [Expected]) -> ParseError {
        self.expected = Some(expected);
        self
    }

    /// The same with the unexpected place.
    #[must_use]
    pub const fn with_unexpected(mut self, unexpected: Span) -> ParseError {
        self.unexpected = Some(unexpected);
        self
    }

    /// Its text.
    pub const fn description(&self) -> &'static str {
        self.description
    }

    /// What it belongs to, if that was given.
    pub const fn context(&self) -> Option<Span> {
        self.context
    }

    /// What was expected, if that was given.
    pub const fn expected(&self) -> Option<&'static [Expected]> {
        self.expected
    }

    /// Where it shows, if that was given.
    pub const fn unexpected(&self) -> Option<Span> {
        self.unexpected
    }
}

impl From<crate::ParseError> for ParseError {
    fn from(error: crate::ParseError) -> ParseError {
        ParseError::new(error.message.text())
            .with_context(error.context.into())
            .with_expected(expected(error.expected))
            .with_unexpected(error.unexpected.into())
    }
}

/// What document.rs names as expected: docs/LAYOUT.md has the list.
const fn expected(expected: crate::Expected) -> &'static [Expected] {
    use crate::Expected as E;
    use Expected::{Description, Literal};
    match expected {
        E::Nothing => &[],
        E::RightSquareBracket => &[Literal("]")],
        E::TwoRightSquareBrackets => &[Literal("]]")],
        E::Key => &[Description("key")],
        E::Equals => &[Literal("=")],
        E::Value => &[Description("value")],
        E::ValueOrRightSquareBracket => &[Description("value"), Literal("]")],
        E::Comma => &[Literal(",")],
        E::LeftCurlyBracket => &[Literal("{")],
        E::RightCurlyBracket => &[Literal("}")],
        E::NewlineOrHash => &[Literal("\n"), Literal("#")],
        E::Newline => &[Literal("\n")],
        E::LeftSquareBracket => &[Literal("[")],
        E::LiteralStringBasicStringOrUnquotedString => {
            &[Description("literal string"), Description("basic string"), Description("unquoted string")]
        }
    }
}
