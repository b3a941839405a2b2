/* Tests deckmarten_check_text and deckmarten_mistakes: which mistakes small texts have, in every room from none to enough; that both list the same; which
 * runs and answers are refused; and that any words may be handed in. Buffers are blocks of exactly their size, so that memcheck sees any step beyond. */
#include <stdio.h>
#include <stdlib.h>
#include <string.h>

#include "deckmarten.h"

#define MOST 4 /* mistakes of a text here */
#define UNTOUCHED 0xa5a5a5a5u

/* message, expected, unexpected start and end, line */
struct wanted {
    uint32_t message, expected, start, end, line;
};

static const struct {
    const char *text;
    size_t mistakes;
    struct wanted wanted[MOST];
} cases[] = {
    {"", 0, {{0}}},
    {"\xef\xbb\xbf[a]\nb = 1\n", 0, {{0}}},
    {"[=ledger]\n", 2, {{101, 4, 1, 1, 1}, {103, 1, 1, 9, 1}}},
    {"[]\n", 1, {{101, 4, 1, 1, 1}}},
    {"x=1\na=\n", 1, {{102, 6, 6, 6, 2}}},
    {"'''a'''=1\n", 1, {{104, 14, 0, 7, 1}}},
    {"[[a]\n", 1, {{1, 2, 4, 4, 1}}},
    {"a\n[=b]\n", 3, {{5, 5, 1, 1, 1}, {101, 4, 3, 3, 2}, {103, 1, 3, 6, 2}}},
    {"y=[1,\n2]\nx={a=}\n", 1, {{19, 1, 14, 14, 3}}},
    {"x=[[\n", 2, {{7, 2, 5, 5, 2}, {7, 2, 4, 4, 1}}},
};
#define CASES (sizeof cases / sizeof *cases)

static int wrong;

static void expect(bool holds, const char *what, size_t number, size_t room) {
    if (holds) return;
    fprintf(stderr, "mistakes: case %zu: %s, with room %zu\n", number, what, room);
    wrong = 1;
}

static void *block(size_t size) {
    void *memory = malloc(size ? size : 1);
    if (!memory) exit(2);
    return memset(memory, 0xa5, size);
}

/* A text's run, in blocks of their own. */
struct run {
    size_t record_bytes, event_words, error_words;
    uint8_t *records;
    uint32_t *events, *errors;
    struct deckmarten_text_answer answer;
};

/* Read as deckmarten_check_text reads it. */
static struct run run(const char *text, size_t bytes) {
    const struct deckmarten_options as_check = {DECKMARTEN_MODE_BRACE};
    struct run r = {DECKMARTEN_RECORD_BYTES(DECKMARTEN_TEXT_RECORDS(bytes)), DECKMARTEN_TEXT_EVENT_WORDS(bytes), DECKMARTEN_TEXT_ERROR_WORDS(bytes),
                    0, 0, 0, {0, 0, 0, 0, 0, 0}};
    r.records = block(r.record_bytes);
    r.events = block(sizeof(uint32_t) * r.event_words);
    r.errors = block(sizeof(uint32_t) * r.error_words);
    r.answer = deckmarten_parse_text((const uint8_t *)text, bytes, as_check, r.records, r.record_bytes, r.events, r.event_words, r.errors, r.error_words);
    return r;
}

static void give_back(struct run r) {
    free(r.records);
    free(r.events);
    free(r.errors);
}

static struct deckmarten_listed list(const struct run *r, struct deckmarten_answer answer, uint32_t *mistakes, size_t words) {
    return deckmarten_mistakes(r->records, DECKMARTEN_RECORD_BYTES(r->answer.records), r->answer.base, answer, r->events, r->event_words, r->errors,
                               r->error_words, mistakes, words);
}

/* The words of a case's mistakes that fit, and behind them nothing. An error keeps its context; of the others it is the place itself. */
static bool written(size_t number, const uint32_t *mistakes, size_t words) {
    size_t i, fit = words / DECKMARTEN_SIZE_ERROR;
    for (i = 0; i < fit && i < cases[number].mistakes; i++) {
        const struct wanted w = cases[number].wanted[i];
        const uint32_t *m = mistakes + DECKMARTEN_SIZE_ERROR * i;
        if (m[0] != w.message || m[1] != w.expected || m[4] != w.start || m[5] != w.end || m[6] != w.line) return false;
        if (w.message > 100 && (m[2] != w.start || m[3] != w.end)) return false;
    }
    for (i *= DECKMARTEN_SIZE_ERROR; i < words; i++)
        if (mistakes[i] != UNTOUCHED) return false;
    return true;
}

/* Both functions in one room for mistakes. */
static void in_room(size_t number, size_t words) {
    const char *text = cases[number].text;
    const size_t bytes = strlen(text), count = cases[number].mistakes;
    const uint32_t refusal = words / DECKMARTEN_SIZE_ERROR < count ? DECKMARTEN_REFUSAL_MISTAKES : DECKMARTEN_REFUSAL_NONE;
    uint32_t *mistakes = block(sizeof(uint32_t) * words), *same = block(sizeof(uint32_t) * words);
    struct run r = run(text, bytes);
    struct deckmarten_check check = deckmarten_check_text((const uint8_t *)text, bytes, r.records, r.record_bytes, r.events, r.event_words, r.errors,
                                                          r.error_words, mistakes, words);
    struct deckmarten_listed listed = list(&r, deckmarten_run_of_text(r.answer), same, words);
    expect(check.refusal == refusal && check.place == 0 && check.mistakes == count, "answer of check_text", number, words);
    expect(check.base == r.answer.base && check.records == r.answer.records && check.events == r.answer.events && check.errors == r.answer.errors,
           "what is known of the run", number, words);
    expect(listed.refusal == refusal && listed.place == 0 && listed.mistakes == count, "answer of mistakes", number, words);
    expect(written(number, mistakes, words) && written(number, same, words), "words", number, words);
    free(mistakes);
    free(same);
    give_back(r);
}

/* Runs that were refused, answers that count more than there is, and records that no run takes. Nothing is written. */
static void refused(void) {
    static const char text[] = "[=ledger]\n";
    struct run r = run(text, sizeof text - 1);
    struct deckmarten_answer answer = deckmarten_run_of_text(r.answer), other = answer;
    uint32_t word[DECKMARTEN_SIZE_ERROR] = {UNTOUCHED};
    struct deckmarten_listed listed;
    other.refusal = DECKMARTEN_REFUSAL_DEPTH, other.place = 3;
    listed = list(&r, other, word, DECKMARTEN_SIZE_ERROR);
    expect(listed.refusal == DECKMARTEN_REFUSAL_DEPTH && listed.place == 3 && !listed.mistakes, "a refused run", CASES, 0);
    other = answer, other.events = r.event_words / DECKMARTEN_SIZE_EVENT + 1;
    listed = list(&r, other, word, DECKMARTEN_SIZE_ERROR);
    expect(listed.refusal == DECKMARTEN_REFUSAL_EVENTS && !listed.place && !listed.mistakes, "more events than there are", CASES, 0);
    other = answer, other.errors = r.error_words / DECKMARTEN_SIZE_ERROR + 1;
    listed = list(&r, other, word, DECKMARTEN_SIZE_ERROR);
    expect(listed.refusal == DECKMARTEN_REFUSAL_ERRORS && !listed.place && !listed.mistakes, "more errors than there are", CASES, 0);
    listed = deckmarten_mistakes(r.records, 7, 0, answer, r.events, r.event_words, r.errors, r.error_words, word, DECKMARTEN_SIZE_ERROR);
    expect(listed.refusal == DECKMARTEN_REFUSAL_PARTIAL_RECORD && listed.place == 1 && !listed.mistakes, "a part of a record", CASES, 0);
    r.records[4] = 17;
    listed = list(&r, answer, word, DECKMARTEN_SIZE_ERROR);
    expect(listed.refusal == DECKMARTEN_REFUSAL_KIND && listed.place == 0 && !listed.mistakes, "a kind that is none", CASES, 0);
    expect(word[0] == UNTOUCHED, "something was written", CASES, 0);
    give_back(r);
}

/* Texts that are not judged. */
static void not_judged(void) {
    static const char *const texts[] = {"a = '\xff'", "a = 1\n"};
    static const struct {
        uint32_t refusal;
        size_t place, records;
    } wanted[] = {{DECKMARTEN_REFUSAL_NOT_UTF8, 5, 0}, {DECKMARTEN_REFUSAL_TOKENS, 0, 7}};
    size_t i;
    for (i = 0; i < 2; i++) {
        uint8_t records[6];
        uint32_t events[12], errors[21], mistakes[42];
        struct deckmarten_check check = deckmarten_check_text((const uint8_t *)texts[i], strlen(texts[i]), records, sizeof records, events, 12, errors,
                                                              21, mistakes, 42);
        expect(check.refusal == wanted[i].refusal && check.place == wanted[i].place && check.records == wanted[i].records && !check.mistakes,
               "a text that is not judged", i, 0);
    }
}

/* Words that no run gives: it ends, and the count is at most one for each event and each error. */
static void any_words(void) {
    static const char text[] = "a = [1, 2]\n";
    uint32_t seed = 1;
    int turn;
    for (turn = 0; turn < 2000; turn++) {
        struct run r = run(text, sizeof text - 1);
        struct deckmarten_answer answer = deckmarten_run_of_text(r.answer);
        size_t i, most = DECKMARTEN_MISTAKE_WORDS(r.answer.records);
        uint32_t *mistakes = block(sizeof(uint32_t) * most);
        struct deckmarten_listed listed;
        for (i = 0; i < r.event_words; i++) r.events[i] = (seed = seed * 1664525 + 1013904223) >> (i % 4 ? 27 : 28);
        for (i = 0; i < r.error_words; i++) r.errors[i] = (seed = seed * 1664525 + 1013904223) >> 27;
        answer.events = r.event_words / DECKMARTEN_SIZE_EVENT;
        answer.errors = r.error_words / DECKMARTEN_SIZE_ERROR;
        listed = list(&r, answer, mistakes, most);
        expect(listed.mistakes >= answer.errors && listed.mistakes <= answer.errors + answer.events, "a count of any words", CASES, most);
        expect(!listed.refusal, "a refusal of any words", CASES, most);
        free(mistakes);
        give_back(r);
    }
}

int main(void) {
    size_t number, words;
    for (number = 0; number < CASES; number++)
        for (words = 0; words <= DECKMARTEN_SIZE_ERROR * (MOST + 1); words++) in_room(number, words);
    refused();
    not_judged();
    any_words();
    if (!wrong) printf("%zu texts in every room, refusals, and 2,000 lists of any words\n", CASES);
    return wrong;
}
