/* Tests deckmarten_lex, deckmarten_parse_text and deckmarten_text_fits on small texts, with and without a byte order mark, in every room
 * from none to enough: answers, every byte and word of the buffers, and what must stay untouched. Each buffer is a block of its own
 * of exactly its size, so that memcheck sees any step beyond. The joined entry is held to deckmarten_parse_document on the records.
 *
 *   texts [STEP]      every room, or each STEPth */
#include <stdio.h>
#include <stdlib.h>

#include "texts.h"

#define UNTOUCHED 0xa5

static const struct deckmarten_options as_crate = {DECKMARTEN_MODE_CRATE};
static int runs;
static size_t step = 1;

static _Noreturn void stop(const char *function, const struct text *text, const char *what, size_t room) {
    fprintf(stderr, "texts: %s: text %d: %s, with room %zu\n", function, (int)(text - texts), what, room);
    exit(1);
}

static void *block(size_t size) {
    void *memory = malloc(size ? size : 1);
    if (!memory) exit(2);
    return memset(memory, UNTOUCHED, size);
}

/* What is lent for records, events and errors. */
struct buffers {
    size_t record_bytes, event_words, error_words;
    uint8_t *records;
    uint32_t *events, *errors;
};

static struct buffers lend(size_t record_bytes, size_t event_words, size_t error_words) {
    return (struct buffers){record_bytes, event_words, error_words, block(record_bytes), block(sizeof(uint32_t) * event_words),
                            block(sizeof(uint32_t) * error_words)};
}

static struct buffers enough(const struct lexed_text *lexed) {
    size_t records = DECKMARTEN_TEXT_RECORDS(lexed->size);
    return (struct buffers){DECKMARTEN_RECORD_BYTES(records), DECKMARTEN_EVENT_WORDS(records), DECKMARTEN_ERROR_WORDS(records), 0, 0, 0};
}

/* memcmp, but for reading ahead as the C library's does, of which memcheck complains */
static bool same_bytes(const void *a, const void *b, size_t size) {
    const volatile uint8_t *left = a, *right = b;
    for (size_t i = 0; i < size; i++)
        if (left[i] != right[i]) return false;
    return true;
}

static bool same(const struct buffers *a, const struct buffers *b) {
    return same_bytes(a->records, b->records, a->record_bytes) && same_bytes(a->events, b->events, sizeof(uint32_t) * a->event_words) &&
           same_bytes(a->errors, b->errors, sizeof(uint32_t) * a->error_words);
}

static void give_back(struct buffers buffers) {
    free(buffers.records);
    free(buffers.events);
    free(buffers.errors);
}

/* What the buffers and the answer must be: the records if they fit, and then what the document entry makes of them. */
static struct deckmarten_text_answer wanted(const struct lexed_text *lexed, struct buffers *buffers) {
    if (lexed->count > buffers->record_bytes / DECKMARTEN_SIZE_RECORD)
        return (struct deckmarten_text_answer){.refusal = DECKMARTEN_REFUSAL_TOKENS, .records = lexed->count};
    size_t bytes = DECKMARTEN_SIZE_RECORD * lexed->count;
    memcpy(buffers->records, lexed->records, bytes);
    struct deckmarten_answer answer = deckmarten_parse_document(lexed->records, bytes, lexed->base, as_crate, buffers->events,
                                                                buffers->event_words, buffers->errors, buffers->error_words);
    return (struct deckmarten_text_answer){answer.refusal, answer.place, lexed->base, lexed->count, answer.events, answer.errors};
}

static struct deckmarten_text_answer check_parse(const struct text *text, const struct lexed_text *lexed, size_t record_bytes,
                                                 size_t event_words, size_t error_words) {
    struct buffers got = lend(record_bytes, event_words, error_words), right = lend(record_bytes, event_words, error_words);
    uint8_t *bytes = block(lexed->size);
    memcpy(bytes, lexed->bytes, lexed->size);
    struct deckmarten_text_answer b = wanted(lexed, &right), a = deckmarten_parse_text(bytes, lexed->size, as_crate, got.records, record_bytes,
                                                                                       got.events, event_words, got.errors, error_words);
    if (a.refusal != b.refusal || a.place != b.place || a.base != b.base || a.records != b.records || a.events != b.events ||
        a.errors != b.errors)
        stop("parse_text", text, "the answer is another", record_bytes + event_words + error_words);
    if (!same(&got, &right)) stop("parse_text", text, "the buffers are others", record_bytes + event_words + error_words);
    if (deckmarten_is_quiet(deckmarten_run_of_text(a), got.events, event_words) != (text->fits && !a.refusal))
        stop("is_quiet", text, "quiet where it does not fit, or the other way round", record_bytes + event_words + error_words);
    give_back(got);
    give_back(right);
    free(bytes);
    runs++;
    return a;
}

static void check_lex(const struct text *text, const struct lexed_text *lexed, size_t record_bytes) {
    struct buffers got = lend(record_bytes, 0, 0), right = lend(record_bytes, 0, 0);
    bool fits = lexed->count <= record_bytes / DECKMARTEN_SIZE_RECORD;
    if (fits) memcpy(right.records, lexed->records, DECKMARTEN_SIZE_RECORD * lexed->count);
    struct deckmarten_lexed a = deckmarten_lex(lexed->bytes, lexed->size, got.records, record_bytes);
    if (a.refusal != (fits ? DECKMARTEN_REFUSAL_NONE : DECKMARTEN_REFUSAL_TOKENS) || a.place != 0 || a.base != (fits ? lexed->base : 0) ||
        a.records != lexed->count)
        stop("lex", text, "the answer is another", record_bytes);
    if (!same(&got, &right)) stop("lex", text, "the records are others", record_bytes);
    give_back(got);
    give_back(right);
    runs++;
}

static void check_fits(const struct text *text, const struct lexed_text *lexed, size_t record_bytes, size_t event_words) {
    struct buffers got = lend(record_bytes, event_words, 0);
    uint32_t refusal = lexed->count > record_bytes / DECKMARTEN_SIZE_RECORD  ? DECKMARTEN_REFUSAL_TOKENS
                       : lexed->count > event_words / DECKMARTEN_SIZE_EVENT ? DECKMARTEN_REFUSAL_EVENTS
                                                                            : DECKMARTEN_REFUSAL_NONE;
    struct deckmarten_verdict a = deckmarten_text_fits(lexed->bytes, lexed->size, got.records, record_bytes, got.events, event_words);
    if (a.refusal != refusal || a.place != 0 || a.fits != (text->fits && !refusal))
        stop("text_fits", text, "the verdict is another", record_bytes + event_words);
    give_back(got);
    runs++;
}

/* Each room by itself, from none to more than enough, the others being enough; and those of the events with none for the errors. */
static void check_rooms(const struct text *text, const struct lexed_text *lexed) {
    struct buffers most = enough(lexed);
    struct deckmarten_text_answer full = check_parse(text, lexed, most.record_bytes, most.event_words, most.error_words);
    for (size_t room = 0; room <= DECKMARTEN_SIZE_RECORD * (lexed->count + 1); room += step) {
        check_lex(text, lexed, room);
        check_parse(text, lexed, room, most.event_words, most.error_words);
        check_fits(text, lexed, room, most.event_words);
    }
    for (size_t room = 0; room <= DECKMARTEN_SIZE_EVENT * (full.events + 1); room += step) {
        check_parse(text, lexed, most.record_bytes, room, most.error_words);
        check_parse(text, lexed, most.record_bytes, room, 0);
    }
    for (size_t room = 0; room <= DECKMARTEN_SIZE_ERROR * (full.errors + 1); room += step)
        check_parse(text, lexed, most.record_bytes, most.event_words, room);
    for (size_t room = 0; room <= DECKMARTEN_SIZE_EVENT * (lexed->count + 1); room += step)
        check_fits(text, lexed, most.record_bytes, room);
}

int main(int count, char **words) {
    if (count > 1) step = strtoul(words[1], NULL, 10);
    if (count > 2 || !step) return 2;
    for (int i = 0; i < TEXTS; i++)
        for (int marked = 0; marked < 2; marked++) {
            struct lexed_text lexed = lexed_text(&texts[i], marked);
            check_rooms(&texts[i], &lexed);
        }
    printf("%d texts, with and without a byte order mark, in %d rooms\n", TEXTS, runs);
    return 0;
}
