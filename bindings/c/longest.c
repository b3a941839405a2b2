/* The longest and the deepest texts, and those just beyond, in a thread with a stack of 256 KiB, with every buffer between pages that must
 * not be touched: once with its start, and once, the longest only so, with its end against one. Checks answers, verdicts and indexes, and prints how
 * much of the stack was used. */
#include "deckmarten.h"
#include "fenced.h"

#define FOUR(text) text text text text
#define SIXTY_FOUR(text) FOUR(FOUR(FOUR(text)))
#define NESTED(inside) "a=" SIXTY_FOUR("[") inside SIXTY_FOUR("]")
#define LONGEST DECKMARTEN_LIMIT_BYTES
#define MANY DECKMARTEN_LIMIT_RECORDS

/* A head, a body that is repeated until the text has so many bytes, and what must come of it. */
static const struct long_text {
    const char *name, *head, *body;
    size_t bytes;
    struct deckmarten_text_answer wanted;
    bool fits;
    size_t headers;
} texts[] = {
    {"a byte too long", "#", " ", LONGEST + 1, {9, LONGEST, 0, 0, 0, 0}, false, 0},
    {"not UTF-8 in the last byte", "#", "\xc3\xa9", LONGEST, {10, LONGEST - 1, 0, 0, 0, 0}, false, 0},
    {"the longest comment, behind a mark", "\xef\xbb\xbf#", "\xf0\x9f\xa6\xa1", LONGEST, {0, 0, 3, 2, 1, 0}, true, 0},
    {"the longest string, never closed", "a='''", "\n", LONGEST, {0, 0, 0, 4, 3, 0}, true, 0},
    {"tokens of one byte", "", "=", LONGEST, {2, MANY, 0, LONGEST + 1, 0, 0}, false, 0},
    {"as many records as are allowed", "", "\n", MANY - 1, {0, 0, 0, MANY, MANY - 1, 0}, true, 0},
    {"a record too many", "", "\n", MANY, {2, MANY, 0, MANY + 1, 0, 0}, false, 0},
    {"as many behind a mark", "\xef\xbb\xbf", "\n", MANY + 2, {0, 0, 3, MANY, MANY - 1, 0}, true, 0},
    {"the most headers", "", "[a]\n", MANY - 1, {0, 0, 0, MANY, MANY - 1, 0}, true, MANY / 4},
    {"a header with the most events", "[a]", "\n", MANY - 1, {0, 0, 0, MANY, MANY - 1, 0}, true, 1},
    {"strings side by side", "a=", "'b'", 3 * (MANY / 2), {0, 0, 0, MANY / 2 + 3, MANY / 2 + 2, 1}, false, 0},
    {"the deepest arrays", NESTED("1"), "", 2 + 64 + 1 + 64, {0, 0, 0, 132, 131, 0}, true, 0},
    {"the deepest inline tables", "a=" SIXTY_FOUR("{a=") "1" SIXTY_FOUR("}"), "", 2 + 192 + 1 + 64, {0, 0, 0, 260, 259, 0}, true, 0},
    {"an array too deep", NESTED("[]"), "", 2 + 64 + 2 + 64, {6, 66, 0, 133, 66, 0}, false, 0},
};
#define TEXTS ((int)(sizeof texts / sizeof *texts))

static struct fenced text_memory, record_memory, event_memory, error_memory, index_memory;

/* One text, as the thread reads it. */
struct run {
    const struct long_text *text;
    int at_end;
    struct deckmarten_options options;
    struct deckmarten_text_answer answer;
    struct deckmarten_lexed lexed;
    struct deckmarten_verdict verdict;
    struct deckmarten_indexed indexed;
    struct deckmarten_header last; /* the last entry, or what is at the start where there is none */
};

static void *read_text(void *data) {
    struct run *run = data;
    size_t bytes = run->text->bytes, most = DECKMARTEN_TEXT_RECORDS(bytes), read = most < MANY ? most : MANY;
    size_t record_bytes = DECKMARTEN_RECORD_BYTES(most), event_words = DECKMARTEN_EVENT_WORDS(read);
    size_t error_words = DECKMARTEN_ERROR_WORDS(read), one_each = (size_t)DECKMARTEN_SIZE_EVENT * read;
    const uint8_t *text = lend(text_memory, bytes, run->at_end);
    uint8_t *records = lend(record_memory, record_bytes, run->at_end);
    run->lexed = deckmarten_lex(text, bytes, records, record_bytes);
    uint32_t *events = lend(event_memory, sizeof *events * event_words, run->at_end);
    run->answer = deckmarten_parse_text(text, bytes, run->options, records, record_bytes, events, event_words,
                                        lend(error_memory, sizeof(uint32_t) * error_words, run->at_end), error_words);
    size_t index_bytes = DECKMARTEN_INDEX_BYTES(run->text->headers), last = run->text->headers ? index_bytes - DECKMARTEN_SIZE_ENTRY : 0;
    uint8_t *index = lend(index_memory, index_bytes, run->at_end);
    run->indexed = deckmarten_index(deckmarten_run_of_text(run->answer), events, event_words, index, index_bytes);
    run->last = deckmarten_header_at(index, index_bytes, last);
    run->verdict = deckmarten_text_fits(text, bytes, records, record_bytes, lend(event_memory, sizeof(uint32_t) * one_each, run->at_end),
                                        one_each);
    return NULL;
}

/* Writes the head, then the body until the text is full: what is written so is doubled again and again. */
static void write_long_text(const struct long_text *text, uint8_t *memory) {
    size_t head = strlen(text->head), size = strlen(text->body), rest = text->bytes - head;
    uint8_t *body = memory + head;
    memcpy(memory, text->head, head);
    memcpy(body, text->body, size);
    for (; size && size < rest; size *= 2) memcpy(body + size, body, size < rest - size ? size : rest - size);
}

static void check(const struct run *run) {
    const struct deckmarten_text_answer *got = &run->answer, *wanted = &run->text->wanted;
    uint32_t by_lexer = wanted->refusal > DECKMARTEN_REFUSAL_ERRORS ? wanted->refusal : 0;
    bool same = got->refusal == wanted->refusal && got->place == wanted->place && got->base == wanted->base &&
                got->records == wanted->records && got->events == wanted->events && got->errors == wanted->errors;
    bool lexed = run->lexed.refusal == by_lexer && run->lexed.place == (by_lexer ? wanted->place : 0) &&
                 run->lexed.base == wanted->base && run->lexed.records == wanted->records;
    bool judged = run->verdict.fits == run->text->fits && run->verdict.refusal == wanted->refusal && run->verdict.place == wanted->place;
    bool indexed = run->indexed.refusal == (run->text->fits ? 0 : DECKMARTEN_REFUSAL_NOT_QUIET) && run->indexed.headers == run->text->headers &&
                   run->indexed.bytes == DECKMARTEN_INDEX_BYTES(run->text->headers);
    bool read = run->last.found == (run->text->headers != 0) && (!run->last.found || run->last.place + run->last.events == wanted->events);
    if (same && lexed && judged && indexed && read) return;
    fprintf(stderr, "%s: parse_text %u %zu %u %zu %zu %zu; lex %u %zu %u %zu; text_fits %d %u %zu; index %u %zu %zu\n", run->text->name, got->refusal,
            got->place, got->base, got->records, got->events, got->errors, run->lexed.refusal, run->lexed.place, run->lexed.base,
            run->lexed.records, run->verdict.fits, run->verdict.refusal, run->verdict.place, run->indexed.refusal, run->indexed.headers,
            run->indexed.bytes);
    exit(1);
}

int main(void) {
    text_memory = fence(LONGEST + 1);
    record_memory = fence(DECKMARTEN_RECORD_BYTES(DECKMARTEN_TEXT_RECORDS(LONGEST + 1)));
    event_memory = fence(sizeof(uint32_t) * DECKMARTEN_EVENT_WORDS(MANY));
    error_memory = fence(sizeof(uint32_t) * DECKMARTEN_ERROR_WORDS(MANY));
    index_memory = fence(DECKMARTEN_INDEX_BYTES(MANY / 4));
    struct fenced stack = fence(STACK);
    size_t idle = stack_used(stack, do_nothing, NULL), most = 0;
    for (int i = 0; i < TEXTS; i++)
        for (int at_end = texts[i].bytes >= LONGEST; at_end < 2; at_end++) {
            struct run run = {.text = &texts[i], .at_end = at_end, .options = {at_end ? DECKMARTEN_MODE_BRACE : DECKMARTEN_MODE_CRATE}};
            write_long_text(&texts[i], lend(text_memory, texts[i].bytes, at_end));
            size_t used = stack_used(stack, read_text, &run);
            if (used > most) most = used;
            check(&run);
        }
    printf("%d texts: at most %zu of %zu bytes of stack used, %zu of them by a thread that does nothing\n", TEXTS, most, STACK, idle);
    return 0;
}
