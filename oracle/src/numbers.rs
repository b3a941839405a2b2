//! The numbers of document 01 for events, encodings, messages and expected things.
//!
//! A text or list that is not known here is a loud failure, never a number.

use crate::decoder::Encoding;
use crate::lines::Lines;
use crate::Expected;
use crate::ParseError;
use crate::Span;

/// Words of an error record: those of the original's report, and the line.
pub const ERROR_WORDS: usize = 7;

/// Names of the events, the one numbered n at place n - 1.
pub const EVENT_NAMES: [&str; 17] = [
    "std_table_open",
    "std_table_close",
    "array_table_open",
    "array_table_close",
    "simple_key",
    "key_sep",
    "key_val_sep",
    "scalar",
    "value_sep",
    "array_open",
    "array_close",
    "inline_table_open",
    "inline_table_close",
    "whitespace",
    "comment",
    "newline",
    "error",
];

/// Texts of the messages, the one numbered n at place n - 1. The last two stand
/// only in text that document 01 leaves out, and follow in source order.
const MESSAGES: [&str; 29] = [
    "unclosed array table",
    "unclosed table",
    "invalid table",
    "invalid key",
    "key with no value",
    "missing value for key",
    "unclosed array",
    "extra comma in array",
    "unexpected `=` in array",
    "missing comma between array elements",
    "missing inline table opening",
    "comments are unsupported in inline tables",
    "newlines are unsupported in inline tables",
    "unclosed inline table",
    "extra comma in inline table",
    "extra assignment between key-value pairs",
    "missing key for inline table element",
    "missing assignment between key-value pairs",
    "trailing commas are not supported in inline tables",
    "invalid inline table element",
    "missing array opening",
    "missing comma between key-value pairs",
    "unexpected key or value",
    "unexpected content between comment and newline",
    "unexpected content",
    "invalid key-value pair",
    "missing table open",
    "missing value",
    "extra `=`",
];

/// Lists of expected things, the one numbered n at place n - 1. The last stands
/// only in text that document 01 leaves out.
const EXPECTED: [&[Expected]; 14] = [
    &[],
    &[Expected::Literal("]")],
    &[Expected::Literal("]]")],
    &[Expected::Description("key")],
    &[Expected::Literal("=")],
    &[Expected::Description("value")],
    &[Expected::Description("value"), Expected::Literal("]")],
    &[Expected::Literal(",")],
    &[Expected::Literal("{")],
    &[Expected::Literal("}")],
    &[Expected::Literal("\n"), Expected::Literal("#")],
    &[Expected::Literal("\n")],
    &[Expected::Literal("[")],
    &[
        Expected::Description("literal string"),
        Expected::Description("basic string"),
        Expected::Description("unquoted string"),
    ],
];

/// The number of an encoding; 0 is none.
pub fn encoding_number(encoding: Option<Encoding>) -> u32 {
    match encoding {
        None => 0,
        Some(Encoding::LiteralString) => 1,
        Some(Encoding::BasicString) => 2,
        Some(Encoding::MlLiteralString) => 3,
        Some(Encoding::MlBasicString) => 4,
    }
}

/// The words of an error, its line being one of these.
pub fn error_words(error: &ParseError, lines: &Lines) -> [u32; ERROR_WORDS] {
    let text = error.description();
    let message = MESSAGES.iter().position(|known| *known == text);
    let message = message.unwrap_or_else(|| panic!("message without a number: {text:?}"));
    let list = error.expected().expect("an error says what was expected");
    let expected = EXPECTED.iter().position(|known| *known == list);
    let expected = expected.unwrap_or_else(|| panic!("expected list without a number: {list:?}"));
    let [context_start, context_end] = span_words(error.context().expect("an error has a context"));
    let unexpected = error.unexpected();
    let unexpected = unexpected.expect("an error has an unexpected place");
    let [start, end] = span_words(unexpected);
    [
        message as u32 + 1,
        expected as u32 + 1,
        context_start,
        context_end,
        start,
        end,
        lines.line_of(unexpected.start()),
    ]
}

/// The two words of a span.
pub fn span_words(span: Span) -> [u32; 2] {
    [span.start(), span.end()].map(|place| u32::try_from(place).expect("a place fits a word"))
}

#[cfg(test)]
mod tests {
    use super::*;

    fn error(text: &'static str, expected: &'static [Expected]) -> ParseError {
        let span = Span::new_unchecked(1, 2);
        ParseError::new(text)
            .with_context(span)
            .with_expected(expected)
            .with_unexpected(span)
    }

    #[test]
    fn known_errors_have_numbers() {
        assert_eq!(
            error_words(&error("unclosed array table", &[]), &Lines::of(&[])),
            [1, 1, 1, 2, 1, 2, 1]
        );
        assert_eq!(
            error_words(&error("extra `=`", EXPECTED[13]), &Lines::of(&[]))[..2],
            [29, 14]
        );
    }

    #[test]
    #[should_panic(expected = "message without a number")]
    fn an_unknown_message_is_loud() {
        error_words(&error("no such message", &[]), &Lines::of(&[]));
    }

    #[test]
    #[should_panic(expected = "expected list without a number")]
    fn an_unknown_list_is_loud() {
        error_words(
            &error("missing value", &[Expected::Literal("?")]),
            &Lines::of(&[]),
        );
    }
}
