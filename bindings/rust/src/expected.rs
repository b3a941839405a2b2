//! What was expected at the place of an error.

use crate::numbered::numbered;

numbered! {
    /// What was expected at the place of an error.
    #[non_exhaustive]
    Expected {
        /// No hint is given.
        Nothing = 1 => "nothing",
        /// `]`
        RightSquareBracket = 2 => "`]`",
        /// `]]`
        TwoRightSquareBrackets = 3 => "`]]`",
        /// A key.
        Key = 4 => "key",
        /// `=`
        Equals = 5 => "`=`",
        /// A value.
        Value = 6 => "value",
        /// A value, or `]`.
        ValueOrRightSquareBracket = 7 => "value or `]`",
        /// `,`
        Comma = 8 => "`,`",
        /// `{`
        LeftCurlyBracket = 9 => "`{`",
        /// `}`
        RightCurlyBracket = 10 => "`}`",
        /// The line's end, or a comment's `#`.
        NewlineOrHash = 11 => "newline or `#`",
        /// The line's end.
        Newline = 12 => "newline",
        /// `[`
        LeftSquareBracket = 13 => "`[`",
        /// A key part that is no multi-line string.
        LiteralStringBasicStringOrUnquotedString = 14 => "literal string, basic string or unquoted string",
    }
}
