/* Shows what the library makes of texts: whether each fits the token grammar, its events with their bytes, and all its errors.
 *
 *   text FILE...
 *
 * Exit status: 0 if every text fits, 1 if one does not, 2 if a file cannot be read. What a yes does not promise is in docs/USING.md. */
#define PROGRAM "text"
#include "showing.h"

/* What an event stands for, if it is a key part, a scalar or a comment. */
static void show_bytes(const uint8_t *text, const uint32_t *event) {
    uint32_t kind = event[0], start = event[2], end = event[3];
    if (start == end) return;
    if (kind != DECKMARTEN_EVENT_SIMPLE_KEY && kind != DECKMARTEN_EVENT_SCALAR && kind != DECKMARTEN_EVENT_COMMENT) return;
    printf(" ");
    fwrite(text + start, 1, end - start, stdout);
}

/* Whether an event is a key that is a multi-line string. No report says so, but TOML 1.0.0 has no such key, and the text does not fit. */
static bool is_multi_line_key(const uint32_t *event) {
    uint32_t kind = event[0], encoding = event[1];
    return kind == DECKMARTEN_EVENT_SIMPLE_KEY &&
           (encoding == DECKMARTEN_ENCODING_ML_LITERAL_STRING || encoding == DECKMARTEN_ENCODING_ML_BASIC_STRING);
}

/* Shows one file and answers whether its text fits. */
static bool show(const char *name) {
    size_t bytes;
    uint8_t *text = read_file(name, DECKMARTEN_LIMIT_BYTES, &bytes);
    /* room for the records of any text of this length, and for what as many as are allowed can give: refusals 7, 8 and 11 do not come */
    size_t most = DECKMARTEN_TEXT_RECORDS(bytes), read = most < DECKMARTEN_LIMIT_RECORDS ? most : DECKMARTEN_LIMIT_RECORDS;
    size_t record_bytes = DECKMARTEN_RECORD_BYTES(most);
    size_t event_words = DECKMARTEN_EVENT_WORDS(read), error_words = DECKMARTEN_ERROR_WORDS(read);
    uint8_t *records = allocate(record_bytes);
    uint32_t *events = allocate(sizeof *events * event_words), *errors = allocate(sizeof *errors * error_words);

    /* the same commas are blamed as by toml_parser; DECKMARTEN_MODE_BRACE looks no farther than the table's own braces */
    struct deckmarten_options options = {DECKMARTEN_MODE_CRATE};
    struct deckmarten_text_answer answer =
        deckmarten_parse_text(text, bytes, options, records, record_bytes, events, event_words, errors, error_words);
    /* a text's records end in one Eof and have no adjacent Whitespace, so they fit if the run is quiet and no key is a multi-line string */
    bool fits = deckmarten_is_quiet(deckmarten_run_of_text(answer), events, event_words);
    for (size_t i = 0; i < answer.events; i++) fits &= !is_multi_line_key(events + DECKMARTEN_SIZE_EVENT * i);
    const char *verdict = answer.refusal ? "refused" : fits ? "fits" : "does not fit";
    printf("%s: %s; base %u, records %zu, events %zu, errors %zu\n", name, verdict, answer.base, answer.records,
           answer.events, answer.errors);
    show_refusal(answer.refusal, answer.place);
    for (size_t i = 0; i < answer.events; i++) {
        show_event(events + DECKMARTEN_SIZE_EVENT * i);
        show_bytes(text, events + DECKMARTEN_SIZE_EVENT * i);
        printf("\n");
    }
    for (size_t i = 0; i < answer.errors; i++) show_error(errors + DECKMARTEN_SIZE_ERROR * i);
    for (size_t i = 0; i < answer.events; i++) {
        const uint32_t *event = events + DECKMARTEN_SIZE_EVENT * i;
        if (is_multi_line_key(event)) printf("  at %u..%u: a multi-line string is no key\n", event[2], event[3]);
    }
    free(text);
    free(records);
    free(events);
    free(errors);
    return fits;
}

int main(int count, char **words) {
    bool all_fit = true;
    if (count < 2) stop("usage: text FILE...", "");
    for (int i = 1; i < count; i++) all_fit &= show(words[i]);
    return all_fit ? 0 : 1;
}
