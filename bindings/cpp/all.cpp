// Calls each function of the headers from C++: that it links, and that a short text is read as it must be.
#include <cstdio>
#include <cstring>
#include <string>
#include <vector>

#include "deckmarten.h"
#include "deckmarten_text.h"

static int wrong;

static void expect(bool holds, const char *what) {
    if (holds) return;
    std::fprintf(stderr, "c++: %s\n", what);
    wrong = 1;
}

int main() {
    const std::string text = "[a.b]\nc = 1\n";
    const uint8_t *bytes = reinterpret_cast<const uint8_t *>(text.data());
    const size_t most = DECKMARTEN_TEXT_RECORDS(text.size());
    const deckmarten_options as_crate = {DECKMARTEN_MODE_CRATE}, as_brace = {DECKMARTEN_MODE_BRACE}, unknown = {2};
    std::vector<uint8_t> records(DECKMARTEN_RECORD_BYTES(most)), index(DECKMARTEN_INDEX_BYTES(1));
    std::vector<uint32_t> events(DECKMARTEN_EVENT_WORDS(most)), errors(DECKMARTEN_ERROR_WORDS(most));

    expect(deckmarten_version() == DECKMARTEN_VERSION, "version");
    expect(deckmarten_text_fits(bytes, text.size(), records.data(), records.size(), events.data(), events.size()).fits, "text_fits");
    const deckmarten_text_answer read = deckmarten_parse_text(bytes, text.size(), as_crate, records.data(), records.size(), events.data(),
                                                              events.size(), errors.data(), errors.size());
    expect(!read.refusal && read.records == 13 && read.events == 12 && !read.errors, "parse_text");
    const deckmarten_answer run = deckmarten_run_of_text(read);
    expect(deckmarten_is_quiet(run, events.data(), events.size()), "is_quiet");
    expect(deckmarten_index(run, events.data(), events.size(), index.data(), index.size()).headers == 1, "index");
    const deckmarten_header header = deckmarten_header_at(index.data(), index.size(), 0);
    expect(header.found == DECKMARTEN_FOUND_HEADER && header.parts == 2 && header.events == 12, "header_at");

    std::vector<uint32_t> mistakes(DECKMARTEN_MISTAKE_WORDS(most));
    const deckmarten_listed listed = deckmarten_mistakes(records.data(), DECKMARTEN_RECORD_BYTES(read.records), read.base, run, events.data(), events.size(),
                                                         errors.data(), errors.size(), mistakes.data(), mistakes.size());
    expect(!listed.refusal && !listed.mistakes, "mistakes");

    const size_t record_bytes = DECKMARTEN_RECORD_BYTES(read.records);
    std::vector<uint8_t> lexed(record_bytes);
    expect(deckmarten_lex(bytes, text.size(), lexed.data(), lexed.size()).records == read.records, "lex");
    expect(!std::memcmp(lexed.data(), records.data(), record_bytes), "records of lex");
    expect(deckmarten_is_regular(lexed.data(), lexed.size(), 0), "is_regular");
    expect(deckmarten_fits(lexed.data(), lexed.size(), 0, events.data(), events.size()).fits, "fits");
    expect(deckmarten_parse_document(lexed.data(), lexed.size(), 0, as_crate, events.data(), events.size(), errors.data(), errors.size()).events == 12,
           "parse_document");

    // `a` is a key, one part of it, and a value; a line that is no more is none of a document
    const deckmarten_token tokens[] = {{1, DECKMARTEN_KIND_ATOM}, {1, DECKMARTEN_KIND_NEWLINE}}, token = tokens[0];
    uint8_t one[DECKMARTEN_SIZE_RECORD];
    expect(deckmarten_put_record(one, token.kind, token.length) == one + sizeof one, "put_record");
    expect(deckmarten_parse_key(one, sizeof one, 0, as_crate, events.data(), events.size(), errors.data(), errors.size()).events == 1, "parse_key");
    expect(deckmarten_parse_simple_key(one, sizeof one, 0, as_crate, events.data(), events.size(), errors.data(), errors.size()).events == 1,
           "parse_simple_key");
    expect(deckmarten_parse_value(one, sizeof one, 0, as_crate, events.data(), events.size(), errors.data(), errors.size()).events == 1, "parse_value");
    expect(events[0] == DECKMARTEN_EVENT_SCALAR, "a value's event");
    // [,{a}: the comma before the brace, and in brace mode the place before the closing one
    const uint8_t kinds[] = {DECKMARTEN_KIND_LEFT_SQUARE_BRACKET, DECKMARTEN_KIND_COMMA, DECKMARTEN_KIND_LEFT_CURLY_BRACKET, DECKMARTEN_KIND_ATOM,
                             DECKMARTEN_KIND_RIGHT_CURLY_BRACKET};
    uint8_t table[DECKMARTEN_SIZE_RECORD * sizeof kinds], *end = table;
    for (const uint8_t kind : kinds) end = deckmarten_put_record(end, kind, 1);
    const uint32_t *second = errors.data() + DECKMARTEN_SIZE_ERROR;
    expect(deckmarten_parse_value(table, sizeof table, 0, as_crate, events.data(), events.size(), errors.data(), errors.size()).errors == 3 &&
               second[0] == DECKMARTEN_MESSAGE_TRAILING_COMMAS_ARE_NOT_SUPPORTED_IN_INLINE_TABLES && second[4] == 1 && second[5] == 2,
           "crate mode");
    expect(deckmarten_parse_value(table, sizeof table, 0, as_brace, events.data(), events.size(), errors.data(), errors.size()).errors == 3 &&
               second[4] == 4 && second[5] == 4,
           "brace mode");
    expect(deckmarten_parse_value(table, sizeof table, 0, unknown, events.data(), events.size(), errors.data(), errors.size()).refusal ==
               DECKMARTEN_REFUSAL_MODE,
           "an unknown mode");
    expect(deckmarten_parse_tokens(tokens, 2, 0, as_crate, events.data(), events.size(), errors.data(), errors.size()).errors == 1, "parse_tokens");
    expect(errors[0] == DECKMARTEN_MESSAGE_KEY_WITH_NO_VALUE, "the error of a key alone");

    const std::string ledger = "[=ledger]\n";
    const deckmarten_check check =
        deckmarten_check_text(reinterpret_cast<const uint8_t *>(ledger.data()), ledger.size(), records.data(), records.size(), events.data(), events.size(),
                              errors.data(), errors.size(), mistakes.data(), mistakes.size());
    expect(!check.refusal && !check.errors && check.mistakes == 2 && mistakes[0] == DECKMARTEN_MESSAGE_KEY_MISSING, "check_text");
    expect(deckmarten_parse_tokens(tokens, 2, 0, as_crate, events.data(), events.size(), errors.data(), errors.size()).errors == 1, "parse_tokens again");

    expect(!std::strcmp(deckmarten_event_text(events[0]), "simple_key"), "event_text");
    expect(!std::strcmp(deckmarten_message_text(errors[0]), "key with no value"), "message_text");
    expect(!std::strcmp(deckmarten_expected_text(errors[1]), "`=`"), "expected_text");
    expect(!std::strcmp(deckmarten_encoding_text(DECKMARTEN_ENCODING_BASIC_STRING), "basic"), "encoding_text");
    expect(!std::strcmp(deckmarten_refusal_text(DECKMARTEN_REFUSAL_NOT_UTF8), "a text that is not UTF-8"), "refusal_text");
    expect(!std::strcmp(deckmarten_message_text(0), "?") && !std::strcmp(deckmarten_message_text(30), "?"), "texts of no number");
    if (!wrong) std::puts("each function of the headers called from C++");
    return wrong;
}
