/* Tests deckmarten_is_quiet, deckmarten_is_regular and deckmarten_fits: which lists are quiet, which are regular, which fit, and which are
 * not judged. */
#include <stdio.h>

#include "notation.h"

#define MOST 160 /* records of a list here */
#define FOUR(text) text text text text
#define SIXTY_FOUR(text) FOUR(FOUR(FOUR(text)))

static const struct {
    const char *text;
    bool quiet, regular, fits;
} cases[] = {
    {"$", 1, 1, 1},
    {"a=a$", 1, 1, 1},
    {" a = a #\n$", 1, 1, 1},
    {"[a]\na.'={a=[a,\n],a=\"}$", 1, 1, 1},
    {"a=" SIXTY_FOUR("[") SIXTY_FOUR("]") "$", 1, 1, 1},
    /* no error is reported, but something was invented */
    {"[=a]\n$", 0, 1, 0},
    {"[]$", 0, 1, 0},
    {"a=\n$", 0, 1, 0},
    /* an error is reported */
    {"[[a]\n$", 0, 1, 0},
    {"a=[a 'a]$", 0, 1, 0},
    /* quiet, but a key is a multi-line string; as a value it is fine */
    {"[B]$", 1, 1, 0},
    {"L=a$", 1, 1, 0},
    {"a.L=a$", 1, 1, 0},
    {"a={B=a}$", 1, 1, 0},
    {"a=[B,L]$", 1, 1, 1},
    /* quiet, but not one Eof that is last, or adjacent Whitespace */
    {"", 1, 0, 0},
    {"a", 1, 0, 0},
    {"a=a\n", 1, 0, 0},
    {"$$", 1, 0, 0},
    {"a=a$a=a$", 1, 0, 0},
    {"  $", 1, 0, 0},
};
#define CASES ((int)(sizeof cases / sizeof *cases))

static uint8_t records[DECKMARTEN_SIZE_RECORD * MOST];
static uint32_t events[DECKMARTEN_EVENT_WORDS(MOST)], errors[DECKMARTEN_ERROR_WORDS(MOST)];
static const struct deckmarten_options as_crate = {DECKMARTEN_MODE_CRATE};
static int wrong;

static void expect(bool holds, const char *what, int number) {
    if (holds) return;
    fprintf(stderr, "quiet: case %d: %s\n", number, what);
    wrong = 1;
}

static bool verdict_is(struct deckmarten_verdict verdict, bool fits, uint32_t refusal, size_t place) {
    return verdict.fits == fits && verdict.refusal == refusal && verdict.place == place;
}

/* Judges a list in every room, from none for its events to one each. */
static void judge(int number) {
    size_t bytes = (size_t)(write_text(cases[number].text, records) - records), count = bytes / DECKMARTEN_SIZE_RECORD;
    size_t event_words = DECKMARTEN_EVENT_WORDS(MOST), error_words = DECKMARTEN_ERROR_WORDS(MOST);
    expect(deckmarten_is_regular(records, bytes, 0) == cases[number].regular, "is_regular", number);
    for (size_t words = 0; words < DECKMARTEN_SIZE_EVENT * count; words++)
        expect(verdict_is(deckmarten_fits(records, bytes, 0, events, words), 0, DECKMARTEN_REFUSAL_EVENTS, 0), "fits in too little", number);
    expect(verdict_is(deckmarten_fits(records, bytes, 0, events, DECKMARTEN_SIZE_EVENT * count), cases[number].fits, 0, 0), "fits", number);
    struct deckmarten_answer answer = deckmarten_parse_document(records, bytes, 0, as_crate, events, event_words, errors, error_words);
    expect(deckmarten_is_quiet(answer, events, event_words) == cases[number].quiet, "is_quiet", number);
    /* a run in a smaller buffer is refused, and not quiet */
    if (!answer.events) return;
    answer = deckmarten_parse_document(records, bytes, 0, as_crate, events, DECKMARTEN_SIZE_EVENT * answer.events - 1, errors, error_words);
    expect(!deckmarten_is_quiet(answer, events, event_words), "is_quiet in too little", number);
}

/* Lists that are not judged. */
static void refuse(void) {
    size_t room = DECKMARTEN_EVENT_WORDS(MOST), bytes = (size_t)(write_text("a=a$", records) - records);
    expect(verdict_is(deckmarten_fits(records, bytes, DECKMARTEN_LIMIT_BYTES - 3, events, room), 1, 0, 0), "base", -1);
    expect(verdict_is(deckmarten_fits(records, bytes, DECKMARTEN_LIMIT_BYTES - 2, events, room), 0, DECKMARTEN_REFUSAL_BYTES, 2), "bytes", -5);
    expect(verdict_is(deckmarten_fits(records, bytes - 1, 0, events, room), 0, DECKMARTEN_REFUSAL_PARTIAL_RECORD, 3), "partial record", -1);
    records[6] = 2;
    expect(verdict_is(deckmarten_fits(records, bytes, 0, events, room), 0, DECKMARTEN_REFUSAL_LENGTH, 1), "length", -4);
    records[4] = 17;
    expect(verdict_is(deckmarten_fits(records, bytes, 0, events, room), 0, DECKMARTEN_REFUSAL_KIND, 0), "kind", -3);
    bytes = (size_t)(write_text("a=[" SIXTY_FOUR("[") "]" SIXTY_FOUR("]") "$", records) - records);
    expect(verdict_is(deckmarten_fits(records, bytes, 0, events, room), 0, DECKMARTEN_REFUSAL_DEPTH, 66), "depth", -6);
}

int main(void) {
    for (int i = 0; i < CASES; i++) judge(i);
    refuse();
    if (!wrong) printf("%d lists are quiet, regular and fitting as they must be\n", CASES);
    return wrong;
}
