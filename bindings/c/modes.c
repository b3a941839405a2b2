/* Tests the modes: which comma message 19 blames in crate mode and in brace mode, that nothing else differs, and that an unknown mode is
 * refused before all else and writes nothing. Each text goes to deckmarten_parse_text, its records to deckmarten_parse_document, and its tokens
 * to deckmarten_parse_tokens. */
#include <stdio.h>
#include <string.h>

#include "deckmarten.h"

#define MOST 64 /* bytes of a text here, and its records */
#define RECORD_BYTES DECKMARTEN_RECORD_BYTES(MOST)
#define EVENT_WORDS DECKMARTEN_EVENT_WORDS(MOST)
#define ERROR_WORDS DECKMARTEN_ERROR_WORDS(MOST)
#define UNTOUCHED 0xa5
#define COMMA DECKMARTEN_MESSAGE_TRAILING_COMMAS_ARE_NOT_SUPPORTED_IN_INLINE_TABLES

/* A text, and the unexpected start and end and the line of its last report of message 19, in crate mode and in brace mode. */
static const struct {
    const char *text;
    uint32_t wanted[2][3];
} cases[] = {
    {"y=[1,\n2]\nx={a=}", {{4, 5, 1}, {14, 14, 3}}},     /* an array of an earlier line */
    {"=[,{a}", {{2, 3, 1}, {5, 5, 1}}},                  /* the shortest that differs */
    {"x={a=1,b={c=}}", {{6, 7, 1}, {12, 12, 1}}},        /* a nested table has its own brace */
    {"x={a=1,}", {{6, 7, 1}, {6, 7, 1}}},                /* the trailing comma itself */
    {"x={a}", {{4, 4, 1}, {4, 4, 1}}},                   /* there is no comma */
    {"x={a=}", {{5, 5, 1}, {5, 5, 1}}},
    {"x={a=[1,2],b=}", {{10, 11, 1}, {10, 11, 1}}},      /* the sound comma between the pairs */
    {"x={a=[1,2]b=}", {{7, 8, 1}, {7, 8, 1}}},           /* in the inner array */
    {"x={a={b=1,c=2}d}", {{9, 10, 1}, {9, 10, 1}}},      /* in the inner table */
    {"x={[,]a}", {{4, 5, 1}, {4, 5, 1}}},                /* in a skipped part */
    {"x={a=1,[2,3]}", {{9, 10, 1}, {9, 10, 1}}},
    {"x={a,}", {{4, 5, 1}, {4, 5, 1}}},                  /* already reported, as message 15 */
    {"x={a=,}", {{5, 6, 1}, {5, 6, 1}}},
    {"x={a=[{b=1,}]c}", {{10, 11, 1}, {10, 11, 1}}},     /* one comma for two tables */
    {"x={a=[\n1,\n2]b=}", {{8, 9, 2}, {8, 9, 2}}},       /* still a line too early */
};
#define CASES ((int)(sizeof cases / sizeof *cases))
static const uint32_t unknown[] = {2, 7, UINT32_MAX};
#define UNKNOWN ((int)(sizeof unknown / sizeof *unknown))

struct run {
    struct deckmarten_text_answer answer;
    uint8_t records[RECORD_BYTES];
    uint32_t events[EVENT_WORDS], errors[ERROR_WORDS];
};

static int wrong;

static void expect(bool holds, const char *what, const char *text) {
    if (holds) return;
    fprintf(stderr, "modes: %s: %s\n", text, what);
    wrong = 1;
}

static struct deckmarten_options in_mode(uint32_t mode) {
    struct deckmarten_options options = {mode};
    return options;
}

static void run_text(struct run *run, const char *text, uint32_t mode) {
    memset(run, UNTOUCHED, sizeof *run);
    run->answer = deckmarten_parse_text((const uint8_t *)text, strlen(text), in_mode(mode), run->records, RECORD_BYTES, run->events, EVENT_WORDS,
                                        run->errors, ERROR_WORDS);
}

static bool same_answer(struct deckmarten_answer a, struct deckmarten_text_answer b) {
    return a.refusal == b.refusal && a.place == b.place && a.events == b.events && a.errors == b.errors;
}

/* The same run over the records and over the tokens leaves the same. */
static void check_lists(const struct run *run, const char *text, uint32_t mode) {
    static uint32_t events[2][EVENT_WORDS], errors[2][ERROR_WORDS];
    struct deckmarten_token tokens[MOST];
    memset(events, UNTOUCHED, sizeof events);
    memset(errors, UNTOUCHED, sizeof errors);
    for (size_t i = 0; i < run->answer.records; i++) {
        const uint8_t *record = run->records + DECKMARTEN_SIZE_RECORD * i;
        tokens[i].length = record[0];
        tokens[i].kind = record[4];
    }
    struct deckmarten_answer a = deckmarten_parse_document(run->records, DECKMARTEN_RECORD_BYTES(run->answer.records), 0, in_mode(mode), events[0],
                                                           EVENT_WORDS, errors[0], ERROR_WORDS);
    struct deckmarten_answer b =
        deckmarten_parse_tokens(tokens, run->answer.records, 0, in_mode(mode), events[1], EVENT_WORDS, errors[1], ERROR_WORDS);
    expect(same_answer(a, run->answer) && same_answer(b, run->answer), "another answer over records or tokens", text);
    for (int i = 0; i < 2; i++)
        expect(!memcmp(events[i], run->events, sizeof run->events) && !memcmp(errors[i], run->errors, sizeof run->errors),
               "other events or errors over records or tokens", text);
}

/* Where the last report of message 19 is, and that it is there. */
static void check_blamed(const struct run *run, const char *text, const uint32_t wanted[3]) {
    const uint32_t *found = NULL;
    for (size_t i = 0; i < run->answer.errors; i++)
        if (run->errors[DECKMARTEN_SIZE_ERROR * i] == COMMA) found = run->errors + DECKMARTEN_SIZE_ERROR * i;
    expect(found && !memcmp(found + 4, wanted, 3 * sizeof *wanted), "another comma is blamed", text);
}

/* The two runs are the same but for the last three words of the reports of message 19. */
static void check_same(struct run *a, struct run *b, const char *text) {
    for (size_t i = 0; i < a->answer.errors; i++) {
        uint32_t *left = a->errors + DECKMARTEN_SIZE_ERROR * i, *right = b->errors + DECKMARTEN_SIZE_ERROR * i;
        if (left[0] == COMMA && right[0] == COMMA) memset(left + 4, 0, 3 * sizeof *left), memset(right + 4, 0, 3 * sizeof *right);
    }
    expect(a->answer.refusal == b->answer.refusal && a->answer.place == b->answer.place && a->answer.base == b->answer.base &&
               a->answer.records == b->answer.records && a->answer.events == b->answer.events && a->answer.errors == b->answer.errors,
           "the answers differ", text);
    expect(!memcmp(a->records, b->records, sizeof a->records) && !memcmp(a->events, b->events, sizeof a->events) &&
               !memcmp(a->errors, b->errors, sizeof a->errors),
           "more than message 19 differs", text);
}

static void check_case(int number) {
    static struct run runs[2];
    const char *text = cases[number].text;
    for (uint32_t mode = DECKMARTEN_MODE_CRATE; mode <= DECKMARTEN_MODE_BRACE; mode++) {
        run_text(&runs[mode], text, mode);
        check_blamed(&runs[mode], text, cases[number].wanted[mode]);
        check_lists(&runs[mode], text, mode);
    }
    check_same(&runs[0], &runs[1], text);
}

static bool untouched(const void *memory, size_t size) {
    for (size_t i = 0; i < size; i++)
        if (((const uint8_t *)memory)[i] != UNTOUCHED) return false;
    return true;
}

/* An unknown mode, and in one call everything else that could be refused. */
static void check_unknown(uint32_t mode) {
    static const uint8_t bytes[] = {0xff, 0, 0, 0, 0xff, 0xff, 0};
    static const struct deckmarten_token token = {0, 0};
    static struct run run;
    typedef struct deckmarten_answer parse(const uint8_t *, size_t, uint32_t, struct deckmarten_options, uint32_t *, size_t, uint32_t *, size_t);
    static parse *const entries[] = {deckmarten_parse_document, deckmarten_parse_key, deckmarten_parse_simple_key, deckmarten_parse_value};
    for (size_t room = 0; room <= 14; room += 14) {
        memset(&run, UNTOUCHED, sizeof run);
        struct deckmarten_text_answer text =
            deckmarten_parse_text(bytes, sizeof bytes, in_mode(mode), run.records, room, run.events, room, run.errors, room);
        expect(text.refusal == DECKMARTEN_REFUSAL_MODE && !text.place && !text.base && !text.records && !text.events && !text.errors,
               "not refused for its mode", "parse_text");
        for (int i = 0; i < 5; i++) {
            struct deckmarten_answer answer =
                i < 4 ? entries[i](bytes, sizeof bytes, UINT32_MAX, in_mode(mode), run.events, room, run.errors, room)
                      : deckmarten_parse_tokens(&token, 1, UINT32_MAX, in_mode(mode), run.events, room, run.errors, room);
            expect(answer.refusal == DECKMARTEN_REFUSAL_MODE && !answer.place && !answer.events && !answer.errors, "not refused for its mode",
                   "an entry over a list");
        }
        expect(untouched(run.records, sizeof run.records) && untouched(run.events, sizeof run.events) && untouched(run.errors, sizeof run.errors),
               "an unknown mode writes", "buffers");
    }
}

int main(void) {
    for (int i = 0; i < CASES; i++) check_case(i);
    for (int i = 0; i < UNKNOWN; i++) check_unknown(unknown[i]);
    if (!wrong) printf("%d texts in both modes, over bytes, records and tokens; %d unknown modes are refused\n", CASES, UNKNOWN);
    return wrong;
}
