/* Tests which texts are refused, with their places: bytes that are not UTF-8, of every kind in Unicode's table of well-formed sequences,
 * texts that are too long, and the order of the refusals. A refused text leaves every buffer untouched. */
#include <stdio.h>
#include <stdlib.h>
#include <string.h>

#include "deckmarten.h"

#define UNTOUCHED 0xa5
#define ROOM 64 /* bytes or words of each buffer */

static const struct {
    const char *text;
    size_t place; /* of the first byte that cannot be UTF-8, or WELL_FORMED */
} cases[] = {
#define WELL_FORMED SIZE_MAX
    /* the first and the last of each length, and what stands round the surrogates */
    {"\x7f", WELL_FORMED}, {"\xc2\x80", WELL_FORMED}, {"\xdf\xbf", WELL_FORMED}, {"\xe0\xa0\x80", WELL_FORMED},
    {"\xed\x9f\xbf", WELL_FORMED}, {"\xee\x80\x80", WELL_FORMED}, {"\xef\xbf\xbf", WELL_FORMED}, {"\xf0\x90\x80\x80", WELL_FORMED},
    {"\xf4\x8f\xbf\xbf", WELL_FORMED},
    /* a byte that starts nothing */
    {"\x80", 0}, {"a\xbf", 1}, {"\xc0\x80", 0}, {"\xc1\xbf", 0}, {"\xf5\x80\x80\x80", 0}, {"\xfe", 0}, {"ab\xff", 2},
    /* the end, or another byte, where one of the sequence must follow */
    {"\xc3", 0}, {"a\xc3(", 1}, {"\xe2\x82", 0}, {"\xe2\x28\xa1", 0}, {"\xe2\x82\x28", 0}, {"\xf0\x9f\xa6", 0}, {"\xf0\x9f\xa6 ", 0},
    {"\xc3\xa9\xc3", 2}, {"\xe2\x82\xac\xe2\x82", 3}, {"\xc3\xa9\xa9", 2},
    /* longer than need be, surrogates, above U+10FFFF */
    {"\xe0\x9f\xbf", 0}, {"\xf0\x8f\xbf\xbf", 0}, {"\xed\xa0\x80", 0}, {"\xed\xbf\xbf", 0}, {"\xf4\x90\x80\x80", 0},
    /* in a comment, in strings, behind a byte order mark, and half of one */
    {"# \xff", 2}, {"a='\xff'", 3}, {"a=\"\"\"\n\xc0\"\"\"", 6}, {"\xef\xbb\xbf\xff", 3}, {"\xef\xbb", 0}, {"\xef\xbb=1", 0},
};
#define CASES ((int)(sizeof cases / sizeof *cases))

static uint8_t records[ROOM];
static uint32_t events[ROOM], errors[ROOM];
static const struct deckmarten_options as_crate = {DECKMARTEN_MODE_CRATE};

static _Noreturn void stop(const char *function, int number) {
    fprintf(stderr, "refused: case %d at %s\n", number, function);
    exit(1);
}

static void fill(void) {
    memset(records, UNTOUCHED, sizeof records);
    memset(events, UNTOUCHED, sizeof events);
    memset(errors, UNTOUCHED, sizeof errors);
}

static bool untouched(void) {
    const uint8_t *buffers[] = {records, (const uint8_t *)events, (const uint8_t *)errors};
    const size_t sizes[] = {sizeof records, sizeof events, sizeof errors};
    for (int i = 0; i < 3; i++)
        for (size_t j = 0; j < sizes[i]; j++)
            if (buffers[i][j] != UNTOUCHED) return false;
    return true;
}

/* A text that is refused so, in this room. */
static void check_in(int number, const uint8_t *text, size_t bytes, uint32_t refusal, size_t place, size_t room) {
    fill();
    struct deckmarten_lexed a = deckmarten_lex(text, bytes, records, room);
    if (a.refusal != refusal || a.place != place || a.base || a.records || !untouched()) stop("lex", number);
    struct deckmarten_text_answer b = deckmarten_parse_text(text, bytes, as_crate, records, room, events, room, errors, room);
    if (b.refusal != refusal || b.place != place || b.base || b.records || b.events || b.errors || !untouched()) stop("parse_text", number);
    struct deckmarten_verdict c = deckmarten_text_fits(text, bytes, records, room, events, room);
    if (c.fits || c.refusal != refusal || c.place != place || !untouched()) stop("text_fits", number);
}

/* With room, and without, which is asked later. */
static void check_refused(int number, const uint8_t *text, size_t bytes, uint32_t refusal, size_t place) {
    check_in(number, text, bytes, refusal, place, ROOM);
    check_in(number, text, bytes, refusal, place, 0);
}

/* Texts of a byte too many, which are Whitespace; the second is not UTF-8 either, which is asked later. */
static void check_too_long(void) {
    static uint8_t text[DECKMARTEN_LIMIT_BYTES + 1];
    memset(text, ' ', sizeof text);
    check_refused(CASES, text, sizeof text, DECKMARTEN_REFUSAL_TEXT_TOO_LONG, DECKMARTEN_LIMIT_BYTES);
    text[0] = 0xff;
    check_refused(CASES + 1, text, sizeof text, DECKMARTEN_REFUSAL_TEXT_TOO_LONG, DECKMARTEN_LIMIT_BYTES);
    check_refused(CASES + 2, text, sizeof text - 1, DECKMARTEN_REFUSAL_NOT_UTF8, 0);
}

/* A character by itself is an Atom, and so a key without a value: read, and no document. */
static void check_well_formed(int number) {
    const uint8_t *text = (const uint8_t *)cases[number].text;
    size_t bytes = strlen(cases[number].text);
    struct deckmarten_lexed a = deckmarten_lex(text, bytes, records, ROOM);
    if (a.refusal || a.place || a.base || a.records != 2 || records[0] != bytes || records[4] != DECKMARTEN_KIND_ATOM) stop("lex", number);
    struct deckmarten_text_answer b = deckmarten_parse_text(text, bytes, as_crate, records, ROOM, events, ROOM, errors, ROOM);
    if (b.refusal || b.events != 1 || b.errors != 1 || errors[0] != DECKMARTEN_MESSAGE_KEY_WITH_NO_VALUE) stop("parse_text", number);
    struct deckmarten_verdict c = deckmarten_text_fits(text, bytes, records, ROOM, events, ROOM);
    if (c.fits || c.refusal || c.place) stop("text_fits", number);
}

int main(void) {
    int refused = 0;
    for (int i = 0; i < CASES; i++) {
        if (cases[i].place == WELL_FORMED) {
            check_well_formed(i);
            continue;
        }
        const uint8_t *text = (const uint8_t *)cases[i].text;
        check_refused(i, text, strlen(cases[i].text), DECKMARTEN_REFUSAL_NOT_UTF8, cases[i].place);
        refused++;
    }
    check_too_long();
    printf("%d texts are refused as not UTF-8, each at its place, and %d are not; texts that are too long are\n", refused, CASES - refused);
    return 0;
}
