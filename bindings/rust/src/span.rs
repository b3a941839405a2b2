//! Places in the text.

use core::fmt;
use core::ops::Range;

/// A part of the text, from the place of its first byte to the place after its last.
#[derive(Clone, Copy, Debug, PartialEq, Eq, Hash)]
pub struct Span {
    /// The place of the first byte.
    pub start: u32,
    /// The place after the last byte.
    pub end: u32,
}

impl Span {
    /// Whether it has no byte. Such an event was invented, or is a bracket that was given up.
    pub const fn is_empty(self) -> bool {
        self.start == self.end
    }

    /// The range to take from the text. Spans of a text's run, and of [`Lexed::tokens`](crate::Lexed::tokens), count from the text's first byte. Those of a run over
    /// records count from where `base` does.
    pub const fn range(self) -> Range<usize> {
        self.start as usize..self.end as usize
    }
}

impl fmt::Display for Span {
    fn fmt(&self, f: &mut fmt::Formatter<'_>) -> fmt::Result {
        write!(f, "{}..{}", self.start, self.end)
    }
}
