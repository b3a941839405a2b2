/* libdeckmarten.a for C and C++: its functions, and a name for every number that goes in or comes out. docs/USING.md shows how to use
 * it, docs/LAYOUT.md says what every byte of the records, every word of the buffers and every part of an answer means.
 * bindings/check-numbers holds the names, the numbers and the parts of the answers here to that page. */
#ifndef DECKMARTEN_H
#define DECKMARTEN_H

#include <stdbool.h>
#include <stddef.h>
#include <stdint.h>

/* The version of this header: a million times the major number, a thousand times the minor one, and the patch number. */
#define DECKMARTEN_VERSION 10002

#ifdef __cplusplus
extern "C" {
#endif

/* The version of the archive. An archive whose version is not DECKMARTEN_VERSION is not the one that this header declares: numbers and the
 * parts of answers may be others. */
uint32_t deckmarten_version(void);

/* What goes beyond a limit is refused; the limit itself is allowed. */
enum deckmarten_limit {
    DECKMARTEN_LIMIT_RECORDS = 65536,  /* token records in a list */
    DECKMARTEN_LIMIT_DEPTH = 64,       /* arrays and inline tables open at once */
    DECKMARTEN_LIMIT_BYTES = 16777216, /* of a text, of `base`, and of the end of each token */
};

/* The line of an error is one more than the Newline tokens that end at or before its unexpected start. Line breaks inside multi-line
 * strings are not counted, a carriage return alone ends a line, and lines do not always rise from one error to the next. */
enum deckmarten_size {
    DECKMARTEN_SIZE_RECORD = 6, /* bytes of a token record: length, 4 bytes, then kind, 2 bytes, both least first */
    DECKMARTEN_SIZE_EVENT = 4,  /* words of an event: kind, encoding, start, end */
    DECKMARTEN_SIZE_ERROR = 7,  /* words of an error: message, expected, context start and end, unexpected start and end, line */
    DECKMARTEN_SIZE_ENTRY = 17, /* bytes of an index entry: length 4, kind 2, place 2, key parts 4, array mark 1, events 4, all least first */
};

/* Records that are enough for a text of so many bytes, and the bytes of so many records. */
#define DECKMARTEN_TEXT_RECORDS(bytes) ((size_t)(bytes) + 1)
#define DECKMARTEN_RECORD_BYTES(records) ((size_t)DECKMARTEN_SIZE_RECORD * (records))
/* Words that are enough for the events and the errors of so many records, at any entry, and of a text of so many bytes. It is proved that with
 * these sizes, and with the bytes above for the records of a text, there is always room. */
#define DECKMARTEN_EVENT_WORDS(records) ((size_t)DECKMARTEN_SIZE_EVENT * 3 * (records))
#define DECKMARTEN_ERROR_WORDS(records) ((size_t)DECKMARTEN_SIZE_ERROR * (2 * (size_t)(records) + 1))
#define DECKMARTEN_TEXT_EVENT_WORDS(bytes) DECKMARTEN_EVENT_WORDS(DECKMARTEN_TEXT_RECORDS(bytes))
#define DECKMARTEN_TEXT_ERROR_WORDS(bytes) DECKMARTEN_ERROR_WORDS(DECKMARTEN_TEXT_RECORDS(bytes))
/* The same for mistakes, which have as many words as errors. */
#define DECKMARTEN_MISTAKE_WORDS(records) ((size_t)DECKMARTEN_SIZE_ERROR * (5 * (size_t)(records) + 1))
#define DECKMARTEN_TEXT_MISTAKE_WORDS(bytes) DECKMARTEN_MISTAKE_WORDS(DECKMARTEN_TEXT_RECORDS(bytes))
/* Bytes of the index of so many headers. */
#define DECKMARTEN_INDEX_BYTES(headers) ((size_t)DECKMARTEN_SIZE_ENTRY * (headers))

/* Kinds of tokens. A token has at least one byte, but for Eof, which has none. */
enum deckmarten_kind {
    DECKMARTEN_KIND_DOT = 1,                  /* `.`, one byte */
    DECKMARTEN_KIND_EQUALS = 2,               /* `=`, one byte */
    DECKMARTEN_KIND_COMMA = 3,                /* `,`, one byte */
    DECKMARTEN_KIND_LEFT_SQUARE_BRACKET = 4,  /* `[`, one byte */
    DECKMARTEN_KIND_RIGHT_SQUARE_BRACKET = 5, /* `]`, one byte */
    DECKMARTEN_KIND_LEFT_CURLY_BRACKET = 6,   /* `{`, one byte */
    DECKMARTEN_KIND_RIGHT_CURLY_BRACKET = 7,  /* `}`, one byte */
    DECKMARTEN_KIND_WHITESPACE = 8,           /* spaces and tabs */
    DECKMARTEN_KIND_COMMENT = 9,              /* `#` and what follows it, without the line's end */
    DECKMARTEN_KIND_NEWLINE = 10,             /* the line's end */
    DECKMARTEN_KIND_LITERAL_STRING = 11,      /* '..' */
    DECKMARTEN_KIND_BASIC_STRING = 12,        /* ".." */
    DECKMARTEN_KIND_ML_LITERAL_STRING = 13,   /* '''..''', over several lines */
    DECKMARTEN_KIND_ML_BASIC_STRING = 14,     /* """..""", over several lines */
    DECKMARTEN_KIND_ATOM = 15,                /* a run of other bytes: a bare key, a number, a date, a word */
    DECKMARTEN_KIND_EOF = 16,                 /* the end of the text, no byte */
};

/* Writes the record of a token of this kind (enum deckmarten_kind) and length to DECKMARTEN_SIZE_RECORD bytes. Answers where the next one
 * goes. */
static inline uint8_t *deckmarten_put_record(uint8_t *record, uint32_t kind, uint32_t length) {
    int i;
    for (i = 0; i < 4; i++) record[i] = (uint8_t)(length >> 8 * i);
    for (i = 0; i < 2; i++) record[4 + i] = (uint8_t)(kind >> 8 * i);
    return record + DECKMARTEN_SIZE_RECORD;
}

/* Kinds of events. An empty span is something that was invented, or a bracket that was given up. */
enum deckmarten_event {
    DECKMARTEN_EVENT_STD_TABLE_OPEN = 1,      /* `[` of a table header */
    DECKMARTEN_EVENT_STD_TABLE_CLOSE = 2,     /* `]` of a table header */
    DECKMARTEN_EVENT_ARRAY_TABLE_OPEN = 3,    /* `[[` of an array table header */
    DECKMARTEN_EVENT_ARRAY_TABLE_CLOSE = 4,   /* `]]` of an array table header */
    DECKMARTEN_EVENT_SIMPLE_KEY = 5,          /* one part of a key */
    DECKMARTEN_EVENT_KEY_SEP = 6,             /* `.` between key parts */
    DECKMARTEN_EVENT_KEY_VAL_SEP = 7,         /* `=` between key and value */
    DECKMARTEN_EVENT_SCALAR = 8,              /* a value that is no array and no inline table */
    DECKMARTEN_EVENT_VALUE_SEP = 9,           /* `,` between values or pairs */
    DECKMARTEN_EVENT_ARRAY_OPEN = 10,         /* `[` of an array */
    DECKMARTEN_EVENT_ARRAY_CLOSE = 11,        /* `]` of an array, or where an array or inline table was given up */
    DECKMARTEN_EVENT_INLINE_TABLE_OPEN = 12,  /* `{` of an inline table */
    DECKMARTEN_EVENT_INLINE_TABLE_CLOSE = 13, /* `}` of an inline table, or the Eof where it was given up */
    DECKMARTEN_EVENT_WHITESPACE = 14,         /* a Whitespace token */
    DECKMARTEN_EVENT_COMMENT = 15,            /* a Comment token */
    DECKMARTEN_EVENT_NEWLINE = 16,            /* a Newline token */
    DECKMARTEN_EVENT_ERROR = 17,              /* a token that has no place where it stands */
};

/* How a key part or a scalar is written. It is 0 for all other events. */
enum deckmarten_encoding {
    DECKMARTEN_ENCODING_NONE = 0,              /* not quoted, or nothing is there */
    DECKMARTEN_ENCODING_LITERAL_STRING = 1,    /* '..' */
    DECKMARTEN_ENCODING_BASIC_STRING = 2,      /* ".." */
    DECKMARTEN_ENCODING_ML_LITERAL_STRING = 3, /* '''..''', over several lines */
    DECKMARTEN_ENCODING_ML_BASIC_STRING = 4,   /* """..""", over several lines */
};

/* Messages of errors, and from 101 on of mistakes that document.rs is silent about: these stand in no error, but in the list of mistakes alone. */
enum deckmarten_message {
    DECKMARTEN_MESSAGE_UNCLOSED_ARRAY_TABLE = 1,                     /* a single `]`, or none, after `[[` and a key */
    DECKMARTEN_MESSAGE_UNCLOSED_TABLE = 2,                           /* no `]` after `[` and a key */
    DECKMARTEN_MESSAGE_INVALID_TABLE = 3,                            /* the list ends in a header before a key part */
    DECKMARTEN_MESSAGE_INVALID_KEY = 4,                              /* at the key entries: no key part, or a multi-line string */
    DECKMARTEN_MESSAGE_KEY_WITH_NO_VALUE = 5,                        /* a line's key is not followed by `=` */
    DECKMARTEN_MESSAGE_MISSING_VALUE_FOR_KEY = 6,                    /* the same, the line starting with `.` */
    DECKMARTEN_MESSAGE_UNCLOSED_ARRAY = 7,                           /* the text ends in an array */
    DECKMARTEN_MESSAGE_EXTRA_COMMA_IN_ARRAY = 8,                     /* `,` where an array wants a value */
    DECKMARTEN_MESSAGE_UNEXPECTED_EQUALS_IN_ARRAY = 9,               /* `=` in an array */
    DECKMARTEN_MESSAGE_MISSING_COMMA_BETWEEN_ARRAY_ELEMENTS = 10,    /* a value or bracket where an array wants a comma */
    DECKMARTEN_MESSAGE_MISSING_INLINE_TABLE_OPENING = 11,            /* `}` in an array, or where a value is wanted */
    DECKMARTEN_MESSAGE_COMMENTS_ARE_UNSUPPORTED_IN_INLINE_TABLES = 12, /* a Comment in an inline table */
    DECKMARTEN_MESSAGE_NEWLINES_ARE_UNSUPPORTED_IN_INLINE_TABLES = 13, /* a Newline in an inline table */
    DECKMARTEN_MESSAGE_UNCLOSED_INLINE_TABLE = 14,                   /* the text ends in an inline table */
    DECKMARTEN_MESSAGE_EXTRA_COMMA_IN_INLINE_TABLE = 15,             /* `,` where a key, `=` or a value is wanted */
    DECKMARTEN_MESSAGE_EXTRA_ASSIGNMENT_BETWEEN_KEY_VALUE_PAIRS = 16, /* `=` where a value or a comma is wanted */
    DECKMARTEN_MESSAGE_MISSING_KEY_FOR_INLINE_TABLE_ELEMENT = 17,    /* `[` or `{` where a key or a comma is wanted */
    DECKMARTEN_MESSAGE_MISSING_ASSIGNMENT_BETWEEN_KEY_VALUE_PAIRS = 18, /* a value where `=` is wanted */
    DECKMARTEN_MESSAGE_TRAILING_COMMAS_ARE_NOT_SUPPORTED_IN_INLINE_TABLES = 19, /* `}` after a comma, a key or `=` */
    DECKMARTEN_MESSAGE_INVALID_INLINE_TABLE_ELEMENT = 20,            /* `]` where a key, `=` or a comma is wanted */
    DECKMARTEN_MESSAGE_MISSING_ARRAY_OPENING = 21,                   /* `]` where a value is wanted, outside an array */
    DECKMARTEN_MESSAGE_MISSING_COMMA_BETWEEN_KEY_VALUE_PAIRS = 22,   /* a key where an inline table wants a comma */
    DECKMARTEN_MESSAGE_UNEXPECTED_KEY_OR_VALUE = 23,                 /* more on the line after a header or a value */
    DECKMARTEN_MESSAGE_UNEXPECTED_CONTENT_BETWEEN_COMMENT_AND_NEWLINE = 24, /* a token right after a Comment */
    DECKMARTEN_MESSAGE_UNEXPECTED_CONTENT = 25,                      /* a token where an entry is finished */
    DECKMARTEN_MESSAGE_INVALID_KEY_VALUE_PAIR = 26,                  /* a line starts with `,`, `{` or `}` */
    DECKMARTEN_MESSAGE_MISSING_TABLE_OPEN = 27,                      /* a line starts with `]` */
    DECKMARTEN_MESSAGE_MISSING_VALUE = 28,                           /* the list ends where a value is wanted */
    DECKMARTEN_MESSAGE_EXTRA_EQUALS = 29,                            /* `=` where a value is wanted */
    DECKMARTEN_MESSAGE_KEY_MISSING = 101,                            /* a key part was invented: nothing stands there */
    DECKMARTEN_MESSAGE_VALUE_MISSING = 102,                          /* a value was invented: nothing stands there */
    DECKMARTEN_MESSAGE_TEXT_SKIPPED = 103,                           /* tokens were passed over, with nothing but Whitespace between them */
    DECKMARTEN_MESSAGE_MULTI_LINE_STRING_AS_KEY = 104,               /* a key part is a multi-line string */
    DECKMARTEN_MESSAGE_BRACKET_NOT_CLOSED = 105,                     /* an array or inline table was given up; in no run that was tried without an error */
    DECKMARTEN_MESSAGE_SOMETHING_MISSING = 106,                      /* something else was invented; in no run that was tried without an error */
};

/* What was expected at the place of an error. */
enum deckmarten_expected {
    DECKMARTEN_EXPECTED_NOTHING = 1,                       /* no hint is given */
    DECKMARTEN_EXPECTED_RIGHT_SQUARE_BRACKET = 2,          /* `]` */
    DECKMARTEN_EXPECTED_TWO_RIGHT_SQUARE_BRACKETS = 3,     /* `]]` */
    DECKMARTEN_EXPECTED_KEY = 4,                           /* a key */
    DECKMARTEN_EXPECTED_EQUALS = 5,                        /* `=` */
    DECKMARTEN_EXPECTED_VALUE = 6,                         /* a value */
    DECKMARTEN_EXPECTED_VALUE_OR_RIGHT_SQUARE_BRACKET = 7, /* a value, or `]` */
    DECKMARTEN_EXPECTED_COMMA = 8,                         /* `,` */
    DECKMARTEN_EXPECTED_LEFT_CURLY_BRACKET = 9,            /* `{` */
    DECKMARTEN_EXPECTED_RIGHT_CURLY_BRACKET = 10,          /* `}` */
    DECKMARTEN_EXPECTED_NEWLINE_OR_HASH = 11,              /* the line's end, or a comment's `#` */
    DECKMARTEN_EXPECTED_NEWLINE = 12,                      /* the line's end */
    DECKMARTEN_EXPECTED_LEFT_SQUARE_BRACKET = 13,          /* `[` */
    DECKMARTEN_EXPECTED_LITERAL_STRING_BASIC_STRING_OR_UNQUOTED_STRING = 14, /* a key part that is no multi-line string */
};

/* Modes: which comma is blamed where `}` stands after a comma, a key or `=` (message 19). If there is none, the place before the `}` is. All
 * else is the same in both. */
enum deckmarten_mode {
    DECKMARTEN_MODE_CRATE = 0, /* the nearest Comma before the `}`, wherever it is, as in toml_parser */
    DECKMARTEN_MODE_BRACE = 1, /* the nearest Comma before the `}` and behind the `{` of the same table */
};

/* What a caller chooses of a run; `{0}` is what toml_parser does. */
struct deckmarten_options {
    uint32_t mode; /* one of enum deckmarten_mode; any other number is refusal MODE */
};

/* Refusals, of all functions. The place is the number of a record, from 0, where nothing else is said; at NONE it is 0. */
enum deckmarten_refusal {
    DECKMARTEN_REFUSAL_NONE = 0,           /* the list was read to its end */
    DECKMARTEN_REFUSAL_PARTIAL_RECORD = 1, /* the byte length is no multiple of 6; place: whole records */
    DECKMARTEN_REFUSAL_RECORDS = 2,        /* more than 65,536 records; place: 65,536 */
    DECKMARTEN_REFUSAL_KIND = 3,           /* a kind outside 1 to 16 */
    DECKMARTEN_REFUSAL_LENGTH = 4,         /* a length wrong for its kind */
    DECKMARTEN_REFUSAL_BYTES = 5,          /* `base`, or a record's end, above 16,777,216; place: 0 for `base` */
    DECKMARTEN_REFUSAL_DEPTH = 6,          /* a 65th array or inline table would be open */
    DECKMARTEN_REFUSAL_EVENTS = 7,         /* the events do not fit; place: 0 */
    DECKMARTEN_REFUSAL_ERRORS = 8,         /* the errors do not fit; place: 0 */
    DECKMARTEN_REFUSAL_TEXT_TOO_LONG = 9,  /* a text of more than 16,777,216 bytes; place: 16,777,216 */
    DECKMARTEN_REFUSAL_NOT_UTF8 = 10,      /* a text that is not UTF-8; place: the first byte that cannot be, from 0 */
    DECKMARTEN_REFUSAL_TOKENS = 11,        /* the tokens do not fit; place: 0 */
    DECKMARTEN_REFUSAL_NOT_QUIET = 12,     /* the run is not quiet, or the buffer does not hold its events; no place */
    DECKMARTEN_REFUSAL_INDEX = 13,         /* the index does not fit; no place */
    DECKMARTEN_REFUSAL_MISTAKES = 14,      /* the mistakes do not fit; place: 0 */
    DECKMARTEN_REFUSAL_MODE = 15,          /* an unknown mode; place: 0. It comes before all others */
};

/* What is at a position in the bytes of an index. */
enum deckmarten_found {
    DECKMARTEN_FOUND_NONE = 0,     /* the position is the end of the bytes */
    DECKMARTEN_FOUND_HEADER = 1,   /* an entry, of a header */
    DECKMARTEN_FOUND_NO_ENTRY = 2, /* bytes that are no entry, or a position beyond the bytes */
};

/* What every function below owes and is owed. Any text, records, base and room may be given: what is wrong with them is a refusal in
 * the answer. Lengths of texts, records and indexes are in bytes, those of the events and the errors in words. Memory that is written overlaps
 * nothing else, and no pointer may be null, even where its length is 0. It is proved that the functions end and read and write nothing
 * else. They keep nothing, and may be called by several threads at once. */

/* Whether a text or a list fits the token grammar. Only `fits` is yes. */
struct deckmarten_verdict {
    bool fits;        /* it was judged, and fits */
    uint32_t refusal; /* if not 0, it was not judged, and `fits` is false */
    size_t place;
};

/* Is this text a document? Yes exactly if it is UTF-8, within the limits, and its tokens fit the token grammar. A yes does not judge
 * what is inside a token: strings that are never closed, escapes, numbers, dates and keys defined twice pass (docs/USING.md).
 * DECKMARTEN_TEXT_RECORDS are enough records, and as many events are enough: DECKMARTEN_SIZE_EVENT words each. With room for fewer
 * events than the text has records the answer is refusal EVENTS. Both buffers are for the function's own use. */
struct deckmarten_verdict deckmarten_text_fits(const uint8_t *text, size_t bytes, uint8_t *records, size_t record_bytes,
                                               uint32_t *events, size_t event_words);

/* What comes of the check of a text: the refusal and its place; what deckmarten_text_answer has; and how many mistakes there are, stored or not: 0 at every
 * refusal but MISTAKES. */
struct deckmarten_check {
    uint32_t refusal;
    size_t place;
    uint32_t base;
    size_t records;
    size_t events;
    size_t errors;
    size_t mistakes;
};

/* The mistakes of a text, DECKMARTEN_SIZE_ERROR words each: every error of its run, as it is, and what document.rs is silent about, as the invented key in
 * `[=ledger]`. **The text fits exactly if `refusal == 0 && mistakes == 0`.** DECKMARTEN_TEXT_RECORDS, DECKMARTEN_TEXT_EVENT_WORDS, DECKMARTEN_TEXT_ERROR_WORDS and
 * DECKMARTEN_TEXT_MISTAKE_WORDS are enough room, and too little is a refusal. Places need not rise from one mistake to the next. The text is read in brace
 * mode: a comma that is blamed stands behind the `{` of its table. What is inside a token is not judged, as at deckmarten_text_fits. */
struct deckmarten_check deckmarten_check_text(const uint8_t *text, size_t bytes, uint8_t *records, size_t record_bytes, uint32_t *events,
                                              size_t event_words, uint32_t *errors, size_t error_words, uint32_t *mistakes,
                                              size_t mistake_words);

/* What comes of records: the refusal's number, its place, and how many events and errors there are, stored or not. */
struct deckmarten_answer {
    uint32_t refusal;
    size_t place;
    size_t events;
    size_t errors;
};

/* What comes of a text: the refusal and its place; where its first token starts, 3 behind a byte order mark and else 0; how many
 * records were written, or at TOKENS would be needed; and how many events and errors there are, stored or not. Spans count from the text's
 * first byte, whatever the base. */
struct deckmarten_text_answer {
    uint32_t refusal;
    size_t place;
    uint32_t base;
    size_t records;
    size_t events;
    size_t errors;
};

/* Reads a text as a document: its records, its events and its errors. Refusals 9 to 11 and MODE write nothing. */
struct deckmarten_text_answer deckmarten_parse_text(const uint8_t *text, size_t bytes, struct deckmarten_options options, uint8_t *records,
                                                    size_t record_bytes, uint32_t *events, size_t event_words, uint32_t *errors,
                                                    size_t error_words);

/* The same run as deckmarten_is_quiet and deckmarten_index take it. */
static inline struct deckmarten_answer deckmarten_run_of_text(struct deckmarten_text_answer answer) {
    struct deckmarten_answer run = {answer.refusal, answer.place, answer.events, answer.errors};
    return run;
}

/* The records of a text: the refusal (0, or 9 to 11) and its place, where the first token starts, and how many records there are. At
 * TOKENS that is how many the text needs. */
struct deckmarten_lexed {
    uint32_t refusal;
    size_t place;
    uint32_t base;
    size_t records;
};

/* Writes the token records of a text, and nothing if it is refused. */
struct deckmarten_lexed deckmarten_lex(const uint8_t *text, size_t bytes, uint8_t *records, size_t record_bytes);

/* A document, a dotted key, one part of a key, and a value. The first token starts at `base`. */
struct deckmarten_answer deckmarten_parse_document(const uint8_t *records, size_t bytes, uint32_t base,
                                                   struct deckmarten_options options, uint32_t *events, size_t event_words,
                                                   uint32_t *errors, size_t error_words);
struct deckmarten_answer deckmarten_parse_key(const uint8_t *records, size_t bytes, uint32_t base,
                                              struct deckmarten_options options, uint32_t *events, size_t event_words,
                                              uint32_t *errors, size_t error_words);
struct deckmarten_answer deckmarten_parse_simple_key(const uint8_t *records, size_t bytes, uint32_t base,
                                                     struct deckmarten_options options, uint32_t *events, size_t event_words,
                                                     uint32_t *errors, size_t error_words);
struct deckmarten_answer deckmarten_parse_value(const uint8_t *records, size_t bytes, uint32_t base,
                                                struct deckmarten_options options, uint32_t *events, size_t event_words,
                                                uint32_t *errors, size_t error_words);

/* A token as a structure. Its kind is to be one of enum deckmarten_kind. */
struct deckmarten_token {
    uint32_t length;
    uint16_t kind;
};

/* A document whose tokens are structures. The answer and both buffers are those of deckmarten_parse_document for records of the same
 * lengths and kinds. Each call clears 384 KiB of stack, in which it makes the records: four tokens take 5.3 microseconds, their records
 * at deckmarten_parse_document 58 nanoseconds (on an aarch64 machine; docs/USING.md). A stack of 256 KiB is too little, and a signal
 * ends the program; 512 KiB are enough. */
struct deckmarten_answer deckmarten_parse_tokens_in(uint32_t mode, const struct deckmarten_token *tokens, size_t count, uint32_t base,
                                                    uint32_t *events, size_t event_words, uint32_t *errors, size_t error_words);
static inline struct deckmarten_answer deckmarten_parse_tokens(const struct deckmarten_token *tokens, size_t count, uint32_t base,
                                                               struct deckmarten_options options, uint32_t *events, size_t event_words,
                                                               uint32_t *errors, size_t error_words) {
    return deckmarten_parse_tokens_in(options.mode, tokens, count, base, events, event_words, errors, error_words);
}

/* Was the run with this answer, which left its events in this buffer, quiet: not refused, no error, and no event of empty span? A run
 * whose buffers were too small is refused, so it is not quiet. */
bool deckmarten_is_quiet(struct deckmarten_answer answer, const uint32_t *events, size_t event_words);

/* What comes of an index: the refusal (0, NOT_QUIET or INDEX); how many headers the events have, 0 at NOT_QUIET; and the bytes that were
 * written, or at INDEX would be needed: DECKMARTEN_INDEX_BYTES of the headers. */
struct deckmarten_indexed {
    uint32_t refusal;
    size_t headers;
    size_t bytes;
};

/* Writes the index of a quiet run, which left its events in this buffer: an entry for each header, in order. What it has is worked out from
 * the events alone. A refusal writes nothing, so a call with no room says how many bytes are needed. Of a text's run the answer is that of
 * deckmarten_run_of_text. */
struct deckmarten_indexed deckmarten_index(struct deckmarten_answer answer, const uint32_t *events, size_t event_words, uint8_t *index,
                                           size_t index_bytes);

/* What comes of the mistakes of a run: the run's own refusal and place; else 1 to 5, where the records are not what a run takes; EVENTS or ERRORS where the
 * answer counts more than the buffer holds; or MISTAKES; and how many mistakes there are, stored or not: 0 at every refusal but MISTAKES. */
struct deckmarten_listed {
    uint32_t refusal;
    size_t place;
    size_t mistakes;
};

/* Writes the mistakes of a document run over these records, which left its events and errors in these buffers. Any words may be given. Of a
 * regular list there is none exactly if it fits. At MISTAKES the buffer holds the first of them, as many as fit; at every other refusal nothing is
 * written. */
struct deckmarten_listed deckmarten_mistakes(const uint8_t *records, size_t bytes, uint32_t base, struct deckmarten_answer answer,
                                             const uint32_t *events, size_t event_words, const uint32_t *errors, size_t error_words,
                                             uint32_t *mistakes, size_t mistake_words);

/* What is at a position in an index: one of enum deckmarten_found; and of a header whether it is an array table (1, else 0), the number of
 * its open event, from 0, of its key parts, and of the events from that one up to the next header or the end; and where the next entry
 * starts. All but `found` is 0 if it is no header. */
struct deckmarten_header {
    uint32_t found;
    uint32_t array;
    size_t place;
    size_t parts;
    size_t events;
    size_t next;
};

/* Reads the entry that starts at this byte of an index. The first starts at 0. Any bytes and any position may be given. */
struct deckmarten_header deckmarten_header_at(const uint8_t *index, size_t index_bytes, size_t at);

/* Has the list one Eof, as its last token, and no two Whitespace tokens in a row? A text's records are so. Of such a list quiet means
 * that it fits. */
bool deckmarten_is_regular(const uint8_t *records, size_t bytes, uint32_t base);

/* Are these records a document that is regular and fits the token grammar? The event buffer is for the function's own use. Room for as
 * many events as there are records is enough; with less the answer is refusal EVENTS. */
struct deckmarten_verdict deckmarten_fits(const uint8_t *records, size_t bytes, uint32_t base, uint32_t *events, size_t event_words);

#ifdef __cplusplus
}
#endif

#endif
