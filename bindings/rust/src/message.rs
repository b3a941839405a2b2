//! What an error says.

use crate::numbered::numbered;

numbered! {
    /// The message of an error or a mistake. `Display` prints the text of document.rs. Those from 101 on are of mistakes that document.rs is silent
    /// about: [`check`](crate::check) and [`mistakes`](crate::mistakes) alone give them.
    #[non_exhaustive]
    Message {
        /// A single `]`, or none, after `[[` and a key.
        UnclosedArrayTable = 1 => "unclosed array table",
        /// No `]` after `[` and a key.
        UnclosedTable = 2 => "unclosed table",
        /// The list ends in a header before a key part.
        InvalidTable = 3 => "invalid table",
        /// At the two key entries: no key part, or a multi-line string.
        InvalidKey = 4 => "invalid key",
        /// A line's key is not followed by `=`.
        KeyWithNoValue = 5 => "key with no value",
        /// The same, where the line starts with `.`.
        MissingValueForKey = 6 => "missing value for key",
        /// The text ends in an array.
        UnclosedArray = 7 => "unclosed array",
        /// `,` where an array wants a value.
        ExtraCommaInArray = 8 => "extra comma in array",
        /// `=` in an array.
        UnexpectedEqualsInArray = 9 => "unexpected `=` in array",
        /// A value or a bracket where an array wants a comma.
        MissingCommaBetweenArrayElements = 10 => "missing comma between array elements",
        /// `}` in an array, or where a value is wanted.
        MissingInlineTableOpening = 11 => "missing inline table opening",
        /// A Comment in an inline table.
        CommentsAreUnsupportedInInlineTables = 12 => "comments are unsupported in inline tables",
        /// A Newline in an inline table.
        NewlinesAreUnsupportedInInlineTables = 13 => "newlines are unsupported in inline tables",
        /// The text ends in an inline table.
        UnclosedInlineTable = 14 => "unclosed inline table",
        /// `,` where a key, `=` or a value is wanted.
        ExtraCommaInInlineTable = 15 => "extra comma in inline table",
        /// `=` where a value or a comma is wanted.
        ExtraAssignmentBetweenKeyValuePairs = 16 => "extra assignment between key-value pairs",
        /// `[` or `{` where a key or a comma is wanted.
        MissingKeyForInlineTableElement = 17 => "missing key for inline table element",
        /// A value where `=` is wanted.
        MissingAssignmentBetweenKeyValuePairs = 18 => "missing assignment between key-value pairs",
        /// `}` after a comma, a key or `=`.
        TrailingCommasAreNotSupportedInInlineTables = 19 => "trailing commas are not supported in inline tables",
        /// `]` where a key, `=` or a comma is wanted.
        InvalidInlineTableElement = 20 => "invalid inline table element",
        /// `]` where a value is wanted, outside an array.
        MissingArrayOpening = 21 => "missing array opening",
        /// A key where an inline table wants a comma.
        MissingCommaBetweenKeyValuePairs = 22 => "missing comma between key-value pairs",
        /// More on the line after a header or a value.
        UnexpectedKeyOrValue = 23 => "unexpected key or value",
        /// A token right after a Comment.
        UnexpectedContentBetweenCommentAndNewline = 24 => "unexpected content between comment and newline",
        /// A token where an entry is finished.
        UnexpectedContent = 25 => "unexpected content",
        /// A line starts with `,`, `{` or `}`.
        InvalidKeyValuePair = 26 => "invalid key-value pair",
        /// A line starts with `]`.
        MissingTableOpen = 27 => "missing table open",
        /// The list ends where a value is wanted.
        MissingValue = 28 => "missing value",
        /// `=` where a value is wanted.
        ExtraEquals = 29 => "extra `=`",
        /// A key part was invented: nothing stands there.
        KeyMissing = 101 => "key missing",
        /// A value was invented: nothing stands there.
        ValueMissing = 102 => "value missing",
        /// Tokens were passed over, with nothing but Whitespace between them.
        TextSkipped = 103 => "text skipped",
        /// A key part is a multi-line string, which TOML 1.0.0 does not allow.
        MultiLineStringAsKey = 104 => "multi-line string as key",
        /// An array or inline table was given up. In every run that was tried an error says so, so that no list had it.
        BracketNotClosed = 105 => "bracket not closed",
        /// Something else was invented. In every run that was tried an error says so, so that no list had it.
        SomethingMissing = 106 => "something missing",
    }
}

impl Message {
    /// Whether document.rs is silent about it, so that no error says it.
    pub const fn is_silent(self) -> bool {
        self.number() > Message::ExtraEquals.number()
    }
}
