/* Texts for the numbers in deckmarten.h, as functions: names of events as docs/LAYOUT.md has them, messages as document.rs has them, and the rest in
 * plain words. Each function answers "?" for a number that has no text. bindings/check-numbers holds the texts to that page. */
#ifndef DECKMARTEN_TEXT_H
#define DECKMARTEN_TEXT_H

#include "deckmarten.h"

static inline const char *deckmarten_event_text(uint32_t number) {
    switch (number) {
    case DECKMARTEN_EVENT_STD_TABLE_OPEN: return "std_table_open";
    case DECKMARTEN_EVENT_STD_TABLE_CLOSE: return "std_table_close";
    case DECKMARTEN_EVENT_ARRAY_TABLE_OPEN: return "array_table_open";
    case DECKMARTEN_EVENT_ARRAY_TABLE_CLOSE: return "array_table_close";
    case DECKMARTEN_EVENT_SIMPLE_KEY: return "simple_key";
    case DECKMARTEN_EVENT_KEY_SEP: return "key_sep";
    case DECKMARTEN_EVENT_KEY_VAL_SEP: return "key_val_sep";
    case DECKMARTEN_EVENT_SCALAR: return "scalar";
    case DECKMARTEN_EVENT_VALUE_SEP: return "value_sep";
    case DECKMARTEN_EVENT_ARRAY_OPEN: return "array_open";
    case DECKMARTEN_EVENT_ARRAY_CLOSE: return "array_close";
    case DECKMARTEN_EVENT_INLINE_TABLE_OPEN: return "inline_table_open";
    case DECKMARTEN_EVENT_INLINE_TABLE_CLOSE: return "inline_table_close";
    case DECKMARTEN_EVENT_WHITESPACE: return "whitespace";
    case DECKMARTEN_EVENT_COMMENT: return "comment";
    case DECKMARTEN_EVENT_NEWLINE: return "newline";
    case DECKMARTEN_EVENT_ERROR: return "error";
    default: return "?";
    }
}

static inline const char *deckmarten_encoding_text(uint32_t number) {
    switch (number) {
    case DECKMARTEN_ENCODING_NONE: return "none";
    case DECKMARTEN_ENCODING_LITERAL_STRING: return "literal";
    case DECKMARTEN_ENCODING_BASIC_STRING: return "basic";
    case DECKMARTEN_ENCODING_ML_LITERAL_STRING: return "multi-line literal";
    case DECKMARTEN_ENCODING_ML_BASIC_STRING: return "multi-line basic";
    default: return "?";
    }
}

static inline const char *deckmarten_message_text(uint32_t number) {
    switch (number) {
    case DECKMARTEN_MESSAGE_UNCLOSED_ARRAY_TABLE: return "unclosed array table";
    case DECKMARTEN_MESSAGE_UNCLOSED_TABLE: return "unclosed table";
    case DECKMARTEN_MESSAGE_INVALID_TABLE: return "invalid table";
    case DECKMARTEN_MESSAGE_INVALID_KEY: return "invalid key";
    case DECKMARTEN_MESSAGE_KEY_WITH_NO_VALUE: return "key with no value";
    case DECKMARTEN_MESSAGE_MISSING_VALUE_FOR_KEY: return "missing value for key";
    case DECKMARTEN_MESSAGE_UNCLOSED_ARRAY: return "unclosed array";
    case DECKMARTEN_MESSAGE_EXTRA_COMMA_IN_ARRAY: return "extra comma in array";
    case DECKMARTEN_MESSAGE_UNEXPECTED_EQUALS_IN_ARRAY: return "unexpected `=` in array";
    case DECKMARTEN_MESSAGE_MISSING_COMMA_BETWEEN_ARRAY_ELEMENTS: return "missing comma between array elements";
    case DECKMARTEN_MESSAGE_MISSING_INLINE_TABLE_OPENING: return "missing inline table opening";
    case DECKMARTEN_MESSAGE_COMMENTS_ARE_UNSUPPORTED_IN_INLINE_TABLES: return "comments are unsupported in inline tables";
    case DECKMARTEN_MESSAGE_NEWLINES_ARE_UNSUPPORTED_IN_INLINE_TABLES: return "newlines are unsupported in inline tables";
    case DECKMARTEN_MESSAGE_UNCLOSED_INLINE_TABLE: return "unclosed inline table";
    case DECKMARTEN_MESSAGE_EXTRA_COMMA_IN_INLINE_TABLE: return "extra comma in inline table";
    case DECKMARTEN_MESSAGE_EXTRA_ASSIGNMENT_BETWEEN_KEY_VALUE_PAIRS: return "extra assignment between key-value pairs";
    case DECKMARTEN_MESSAGE_MISSING_KEY_FOR_INLINE_TABLE_ELEMENT: return "missing key for inline table element";
    case DECKMARTEN_MESSAGE_MISSING_ASSIGNMENT_BETWEEN_KEY_VALUE_PAIRS: return "missing assignment between key-value pairs";
    case DECKMARTEN_MESSAGE_TRAILING_COMMAS_ARE_NOT_SUPPORTED_IN_INLINE_TABLES: return "trailing commas are not supported in inline tables";
    case DECKMARTEN_MESSAGE_INVALID_INLINE_TABLE_ELEMENT: return "invalid inline table element";
    case DECKMARTEN_MESSAGE_MISSING_ARRAY_OPENING: return "missing array opening";
    case DECKMARTEN_MESSAGE_MISSING_COMMA_BETWEEN_KEY_VALUE_PAIRS: return "missing comma between key-value pairs";
    case DECKMARTEN_MESSAGE_UNEXPECTED_KEY_OR_VALUE: return "unexpected key or value";
    case DECKMARTEN_MESSAGE_UNEXPECTED_CONTENT_BETWEEN_COMMENT_AND_NEWLINE: return "unexpected content between comment and newline";
    case DECKMARTEN_MESSAGE_UNEXPECTED_CONTENT: return "unexpected content";
    case DECKMARTEN_MESSAGE_INVALID_KEY_VALUE_PAIR: return "invalid key-value pair";
    case DECKMARTEN_MESSAGE_MISSING_TABLE_OPEN: return "missing table open";
    case DECKMARTEN_MESSAGE_MISSING_VALUE: return "missing value";
    case DECKMARTEN_MESSAGE_EXTRA_EQUALS: return "extra `=`";
    case DECKMARTEN_MESSAGE_KEY_MISSING: return "key missing";
    case DECKMARTEN_MESSAGE_VALUE_MISSING: return "value missing";
    case DECKMARTEN_MESSAGE_TEXT_SKIPPED: return "text skipped";
    case DECKMARTEN_MESSAGE_MULTI_LINE_STRING_AS_KEY: return "multi-line string as key";
    case DECKMARTEN_MESSAGE_BRACKET_NOT_CLOSED: return "bracket not closed";
    case DECKMARTEN_MESSAGE_SOMETHING_MISSING: return "something missing";
    default: return "?";
    }
}

static inline const char *deckmarten_expected_text(uint32_t number) {
    switch (number) {
    case DECKMARTEN_EXPECTED_NOTHING: return "nothing";
    case DECKMARTEN_EXPECTED_RIGHT_SQUARE_BRACKET: return "`]`";
    case DECKMARTEN_EXPECTED_TWO_RIGHT_SQUARE_BRACKETS: return "`]]`";
    case DECKMARTEN_EXPECTED_KEY: return "key";
    case DECKMARTEN_EXPECTED_EQUALS: return "`=`";
    case DECKMARTEN_EXPECTED_VALUE: return "value";
    case DECKMARTEN_EXPECTED_VALUE_OR_RIGHT_SQUARE_BRACKET: return "value or `]`";
    case DECKMARTEN_EXPECTED_COMMA: return "`,`";
    case DECKMARTEN_EXPECTED_LEFT_CURLY_BRACKET: return "`{`";
    case DECKMARTEN_EXPECTED_RIGHT_CURLY_BRACKET: return "`}`";
    case DECKMARTEN_EXPECTED_NEWLINE_OR_HASH: return "newline or `#`";
    case DECKMARTEN_EXPECTED_NEWLINE: return "newline";
    case DECKMARTEN_EXPECTED_LEFT_SQUARE_BRACKET: return "`[`";
    case DECKMARTEN_EXPECTED_LITERAL_STRING_BASIC_STRING_OR_UNQUOTED_STRING: return "literal string, basic string or unquoted string";
    default: return "?";
    }
}

static inline const char *deckmarten_refusal_text(uint32_t number) {
    switch (number) {
    case DECKMARTEN_REFUSAL_NONE: return "not refused";
    case DECKMARTEN_REFUSAL_PARTIAL_RECORD: return "the byte length is no multiple of 6";
    case DECKMARTEN_REFUSAL_RECORDS: return "more than 65,536 records";
    case DECKMARTEN_REFUSAL_KIND: return "a kind outside 1 to 16";
    case DECKMARTEN_REFUSAL_LENGTH: return "a length wrong for its kind";
    case DECKMARTEN_REFUSAL_BYTES: return "`base`, or a record's end, above 16,777,216";
    case DECKMARTEN_REFUSAL_DEPTH: return "a 65th array or inline table would be open";
    case DECKMARTEN_REFUSAL_EVENTS: return "the events do not fit";
    case DECKMARTEN_REFUSAL_ERRORS: return "the errors do not fit";
    case DECKMARTEN_REFUSAL_TEXT_TOO_LONG: return "a text of more than 16,777,216 bytes";
    case DECKMARTEN_REFUSAL_NOT_UTF8: return "a text that is not UTF-8";
    case DECKMARTEN_REFUSAL_TOKENS: return "the tokens do not fit";
    case DECKMARTEN_REFUSAL_NOT_QUIET: return "the run is not quiet";
    case DECKMARTEN_REFUSAL_INDEX: return "the index does not fit";
    case DECKMARTEN_REFUSAL_MISTAKES: return "the mistakes do not fit";
    case DECKMARTEN_REFUSAL_MODE: return "an unknown mode";
    default: return "?";
    }
}

#endif
