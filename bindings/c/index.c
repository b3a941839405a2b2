/* Tests deckmarten_index and deckmarten_header_at: which headers small texts have, in every room from none to more than enough; which runs
 * have no index; and what is at each position of whole, cut and damaged entries. */
#include <stdio.h>
#include <string.h>

#include "deckmarten.h"

#define MOST 64 /* bytes of a text here, and its records */
#define HEADERS 4
#define ROOM (DECKMARTEN_INDEX_BYTES(HEADERS) + 8)
#define UNTOUCHED 0xA5

struct wanted {
    size_t place, parts, array, events;
};

/* A text, how many headers it has if its run is quiet, and which. */
static const struct {
    const char *text;
    bool quiet;
    size_t headers;
    struct wanted wanted[HEADERS];
} cases[] = {
    {"", true, 0, {{0}}},
    {"a=[[1]]\n", true, 0, {{0}}},
    {"[a]", true, 1, {{0, 1, 0, 3}}},
    {"[[a]]", true, 1, {{0, 1, 1, 3}}},
    {"#\n[ a . 'b' ]\nc.d=1\n", true, 1, {{2, 2, 0, 16}}},
    {"x=1\n[a]\n[b.c]\ny=[]\n[[d.e.f]]\n[a]", true, 4, {{4, 1, 0, 4}, {8, 2, 0, 11}, {19, 3, 1, 8}, {27, 1, 0, 3}}},
    {"[a", false, 0, {{0}}},
    {"[[a]\n", false, 0, {{0}}},
    {"[=a]\n", false, 0, {{0}}},
    {"[a]\nb=\n", false, 0, {{0}}},
    {"[a]\n\xff", false, 0, {{0}}},
};
#define CASES ((int)(sizeof cases / sizeof *cases))

static uint8_t records[DECKMARTEN_RECORD_BYTES(DECKMARTEN_TEXT_RECORDS(MOST))], bytes[ROOM];
static uint32_t events[DECKMARTEN_EVENT_WORDS(DECKMARTEN_TEXT_RECORDS(MOST))], errors[DECKMARTEN_ERROR_WORDS(DECKMARTEN_TEXT_RECORDS(MOST))];
static const size_t event_words = sizeof events / sizeof *events, error_words = sizeof errors / sizeof *errors;
static const struct deckmarten_options as_crate = {DECKMARTEN_MODE_CRATE};
static int wrong;

static void expect(bool holds, const char *what, int number) {
    if (holds) return;
    fprintf(stderr, "index: case %d: %s\n", number, what);
    wrong = 1;
}

static struct deckmarten_answer run(const char *text) {
    return deckmarten_run_of_text(deckmarten_parse_text((const uint8_t *)text, strlen(text), as_crate, records, sizeof records, events,
                                                        event_words, errors, error_words));
}

/* Whether the bytes from there on are as they were. */
static bool untouched(size_t from) {
    for (; from < ROOM; from++)
        if (bytes[from] != UNTOUCHED) return false;
    return true;
}

static struct deckmarten_indexed index_in(struct deckmarten_answer answer, size_t words, size_t room) {
    memset(bytes, UNTOUCHED, ROOM);
    return deckmarten_index(answer, events, words, bytes, room);
}

static bool refused(struct deckmarten_answer answer, size_t words) {
    struct deckmarten_indexed got = index_in(answer, words, ROOM);
    return got.refusal == DECKMARTEN_REFUSAL_NOT_QUIET && !got.headers && !got.bytes && untouched(0);
}

static bool is_header(struct deckmarten_header got, const struct wanted *wanted, size_t next) {
    return got.found == DECKMARTEN_FOUND_HEADER && got.place == wanted->place && got.parts == wanted->parts && got.array == wanted->array &&
           got.events == wanted->events && got.next == next;
}

static bool is_no_header(struct deckmarten_header got, uint32_t found) {
    return got.found == found && !got.place && !got.parts && !got.array && !got.events && !got.next;
}

/* The entries of a case, in the layout of docs/LAYOUT.md and read back; each cut short; and each with bytes that make it no entry. */
static void read_back(int number) {
    static const struct {
        size_t at;
        uint8_t bits;
    } damages[] = {{0, 1}, {0, 16}, {1, 1}, {2, 1}, {3, 128}, {4, 1}, {4, 3}, {5, 1}, {12, 2}, {12, 128}};
    size_t whole = DECKMARTEN_INDEX_BYTES(cases[number].headers);
    for (size_t i = 0; i < cases[number].headers; i++) {
        size_t at = DECKMARTEN_INDEX_BYTES(i), next = DECKMARTEN_INDEX_BYTES(i + 1);
        const struct wanted *w = &cases[number].wanted[i];
        uint8_t entry[DECKMARTEN_SIZE_ENTRY] = {17, 0, 0, 0, 1, 0, w->place, 0, w->parts, 0, 0, 0, w->array, w->events, 0, 0, 0};
        expect(!memcmp(bytes + at, entry, sizeof entry), "bytes of an entry", number);
        expect(is_header(deckmarten_header_at(bytes, whole, at), w, next), "header_at", number);
        expect(is_header(deckmarten_header_at(bytes, next, at), w, next), "header_at, the last entry", number);
        for (size_t cut = at + 1; cut < next; cut++)
            expect(is_no_header(deckmarten_header_at(bytes, cut, at), DECKMARTEN_FOUND_NO_ENTRY), "an entry that is cut", number);
        for (size_t j = 0; j < sizeof damages / sizeof *damages; j++) {
            bytes[at + damages[j].at] ^= damages[j].bits;
            expect(is_no_header(deckmarten_header_at(bytes, whole, at), DECKMARTEN_FOUND_NO_ENTRY), "an entry that is damaged", number);
            bytes[at + damages[j].at] ^= damages[j].bits;
        }
    }
    expect(is_no_header(deckmarten_header_at(bytes, whole, whole), DECKMARTEN_FOUND_NONE), "header_at the end", number);
    expect(is_no_header(deckmarten_header_at(bytes, whole, whole + 1), DECKMARTEN_FOUND_NO_ENTRY), "header_at beyond", number);
    expect(is_no_header(deckmarten_header_at(bytes, whole, (size_t)-1), DECKMARTEN_FOUND_NO_ENTRY), "header_at far beyond", number);
}

/* An index in every room, and with answers and buffers that are not those of the run. */
static void check(int number) {
    struct deckmarten_answer answer = run(cases[number].text), other;
    size_t need = DECKMARTEN_INDEX_BYTES(cases[number].headers), held = DECKMARTEN_SIZE_EVENT * answer.events;
    expect(deckmarten_is_quiet(answer, events, event_words) == cases[number].quiet, "is_quiet", number);
    if (!cases[number].quiet) {
        for (size_t words = 0; words <= held; words++) expect(refused(answer, words), "a run that is not quiet", number);
        return;
    }
    for (size_t room = 0; room <= ROOM; room++) {
        struct deckmarten_indexed got = index_in(answer, event_words, room);
        expect(got.refusal == (room < need ? DECKMARTEN_REFUSAL_INDEX : 0), "refusal", number);
        expect(got.headers == cases[number].headers && got.bytes == need, "headers and bytes", number);
        expect(untouched(room < need ? 0 : need), "bytes that must stay", number);
    }
    read_back(number);
    for (size_t words = 0; words < held; words++) expect(refused(answer, words), "a buffer that does not hold the events", number);
    for (uint32_t refusal = 1; refusal <= DECKMARTEN_REFUSAL_INDEX; refusal++)
        expect(refused((struct deckmarten_answer){refusal, 0, answer.events, 0}, event_words), "a refused run", number);
    expect(refused((struct deckmarten_answer){0, 0, answer.events, 1}, event_words), "a run with an error", number);
    other = answer;
    for (other.events = (size_t)-1; other.events > DECKMARTEN_LIMIT_RECORDS; other.events /= 2)
        expect(refused(other, event_words), "a count that no run has", number);
}

int main(void) {
    for (int i = 0; i < CASES; i++) check(i);
    if (!wrong) printf("%d texts have the headers that they must have, in every room\n", CASES);
    return wrong;
}
