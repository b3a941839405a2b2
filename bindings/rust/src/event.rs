//! Events: what was read, in the order of the text.

use core::fmt;

use crate::numbered::numbered;
use crate::Span;

numbered! {
    /// The kind of an event. `Display` prints what it stands for, `Debug` its name.
    #[non_exhaustive]
    EventKind {
        /// `[` of a table header.
        StdTableOpen = 1 => "start of a table header",
        /// `]` of a table header.
        StdTableClose = 2 => "end of a table header",
        /// `[[` of an array table header, both brackets in one span.
        ArrayTableOpen = 3 => "start of an array table header",
        /// `]]` of an array table header, both brackets in one span.
        ArrayTableClose = 4 => "end of an array table header",
        /// One part of a key.
        SimpleKey = 5 => "key part",
        /// `.` between key parts.
        KeySep = 6 => "dot between key parts",
        /// `=` between key and value.
        KeyValSep = 7 => "equals sign between key and value",
        /// A value that is no array and no inline table.
        Scalar = 8 => "value",
        /// `,` between values or pairs.
        ValueSep = 9 => "comma",
        /// `[` of an array.
        ArrayOpen = 10 => "start of an array",
        /// `]` of an array, or the place where an array or an inline table was given up.
        ArrayClose = 11 => "end of an array",
        /// `{` of an inline table.
        InlineTableOpen = 12 => "start of an inline table",
        /// `}` of an inline table, or the Eof at which it was given up.
        InlineTableClose = 13 => "end of an inline table",
        /// A Whitespace token.
        Whitespace = 14 => "whitespace",
        /// A Comment token.
        Comment = 15 => "comment",
        /// A Newline token.
        Newline = 16 => "newline",
        /// A token that has no place where it stands.
        Error = 17 => "misplaced token",
    }
}

numbered! {
    /// How a quoted key part or value is written.
    Encoding {
        /// `'..'`
        LiteralString = 1 => "literal",
        /// `".."`
        BasicString = 2 => "basic",
        /// `'''..'''`
        MlLiteralString = 3 => "multi-line literal",
        /// `""".."""`
        MlBasicString = 4 => "multi-line basic",
    }
}

/// Something that was read.
#[derive(Clone, Copy, Debug, PartialEq, Eq, Hash)]
#[non_exhaustive]
pub struct Event {
    /// What it is.
    pub kind: EventKind,
    /// How it is written, if it is a key part or a value and quoted.
    pub encoding: Option<Encoding>,
    /// Where it stands. An empty span is something that was invented, or a bracket that was given up.
    pub span: Span,
}

impl Event {
    /// Whether it is a key part that is a multi-line string. No error says so, but TOML 1.0.0 has no such key, and a text that has one does not fit.
    #[must_use]
    pub fn is_multi_line_key(&self) -> bool {
        self.kind == EventKind::SimpleKey && matches!(self.encoding, Some(Encoding::MlLiteralString | Encoding::MlBasicString))
    }

    pub(crate) fn read(words: &[u32]) -> Event {
        Event {
            kind: EventKind::from_number(words[0]).expect("an event has a kind of 1 to 17"),
            encoding: match words[1] {
                0 => None,
                number => Some(Encoding::from_number(number).expect("an encoding is one of 0 to 4")),
            },
            span: Span { start: words[2], end: words[3] },
        }
    }
}

impl fmt::Display for Event {
    fn fmt(&self, f: &mut fmt::Formatter<'_>) -> fmt::Result {
        write!(f, "{} at {}", self.kind, self.span)
    }
}
