//! Errors: what is wrong with the text, and where.

use core::fmt;

use crate::{Expected, Message, Span};

/// A mistake in the text.
#[non_exhaustive]
#[derive(Clone, Copy, Debug, PartialEq, Eq, Hash)]
pub struct ParseError {
    /// What is wrong.
    pub message: Message,
    /// What was expected instead.
    pub expected: Expected,
    /// What the mistake belongs to, for instance the bracket that is not closed.
    pub context: Span,
    /// Where the mistake shows.
    pub unexpected: Span,
    /// The line of the place where the mistake shows, from 1: one more than the Newline tokens that end at or before its start.
    ///
    /// Line breaks inside multi-line strings are not counted, and a carriage return alone ends a line. Lines do not always rise from one
    /// error to the next: what is never closed shows where the last token before the end is, and a trailing comma where the comma is.
    ///
    /// ```
    /// use deckmarten::Room;
    ///
    /// let lines = |text: &str| Room::new().parse_text(text.as_bytes()).errors().map(|error| error.line).collect::<Vec<_>>();
    /// assert_eq!(lines("a = 1\nb\nc\n"), [2, 3]);
    /// // an editor would say 3
    /// assert_eq!(lines("a = \"\"\"\n\"\"\"\nb\n"), [2]);
    /// // the inner array ends behind the newline, the outer one is looked for before it
    /// assert_eq!(lines("x=[[\n"), [2, 1]);
    /// ```
    pub line: u32,
}

impl ParseError {
    pub(crate) fn read(words: &[u32]) -> ParseError {
        ParseError {
            message: Message::from_number(words[0]).expect("an error or a mistake has a message of docs/LAYOUT.md"),
            expected: Expected::from_number(words[1]).expect("an error or a mistake has an expected of 1 to 14"),
            context: Span { start: words[2], end: words[3] },
            unexpected: Span { start: words[4], end: words[5] },
            line: words[6],
        }
    }
}

impl fmt::Display for ParseError {
    fn fmt(&self, f: &mut fmt::Formatter<'_>) -> fmt::Result {
        write!(f, "line {}: {} at {}", self.line, self.message, self.unexpected)?;
        match self.expected {
            Expected::Nothing => Ok(()),
            expected => write!(f, ", expected {expected}"),
        }
    }
}

impl core::error::Error for ParseError {}
