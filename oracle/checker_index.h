/* The part of ./differ's checker that has the index of headers: what is written in several rooms, what is read back from it, and what is
 * read from any bytes. What must come is in the frames, worked out from the events that document.rs gave (src/headers.rs). */
#ifndef CHECKER_INDEX_H
#define CHECKER_INDEX_H

#include "checker.h"
#include "checker_texts.h"

struct index_frame {
    uint32_t refusal, place[2], events[2], errors[2];
    uint32_t event_words, headers, rooms;
};

struct header_words {
    uint32_t place, parts, array, events;
};

struct indexed {
    uint32_t room, refusal, headers, bytes;
};

/* An index with what must come. */
struct index {
    struct deckmarten_answer run;
    const uint32_t *events;
    size_t event_words;
    const struct header_words *headers;
    size_t header_count;
    const uint8_t *bytes;
};

struct found_frame {
    uint32_t bytes, at[2], found;
    struct header_words header;
};

static uint64_t indexes, entries_read;

static size_t both_words(const uint32_t words[2]) { return words[0] | (size_t)words[1] << 32; }

static bool same_header(struct deckmarten_header got, uint32_t found, const struct header_words *want, size_t next) {
    if (found != DECKMARTEN_FOUND_HEADER)
        return got.found == found && !got.array && !got.place && !got.parts && !got.events && !got.next;
    return got.found == found && got.array == want->array && got.place == want->place && got.parts == want->parts &&
           got.events == want->events && got.next == next;
}

static _Noreturn void differs_index(const struct index *ix, const struct indexed *want, const char *what) {
    printf("differs %" PRIu64 " index %u %zu %zu %zu %u ", cases, ix->run.refusal, ix->run.place, ix->run.events, ix->run.errors, want->room);
    print_hex((const uint8_t *)ix->events, 4 * ix->event_words);
    printf("\n%s\nfrom the events: refusal %u headers %u bytes %u;", what, want->refusal, want->headers, want->bytes);
    for (size_t i = 0; i < ix->header_count; i++)
        printf(" %u %u %u %u |", ix->headers[i].place, ix->headers[i].parts, ix->headers[i].array, ix->headers[i].events);
    finish_difference();
}

/* Reads back what was written: the same headers, in order, and then the end. */
static void check_read_back(const struct index *ix, const struct indexed *want, const uint8_t *bytes) {
    size_t at = 0;
    for (size_t i = 0; i <= ix->header_count; i++, entries_read++) {
        bool last = i == ix->header_count;
        struct deckmarten_header got = deckmarten_header_at(bytes, want->bytes, at);
        if (!same_header(got, last ? DECKMARTEN_FOUND_NONE : DECKMARTEN_FOUND_HEADER, ix->headers + i, at + DECKMARTEN_SIZE_ENTRY)) {
            char what[200];
            snprintf(what, sizeof what, "library, read back at %zu: found %u; %zu %zu %u %zu, next %zu", at, got.found, got.place, got.parts,
                     got.array, got.events, got.next);
            differs_index(ix, want, what);
        }
        at = got.next;
    }
}

static void check_in_room(const struct index *ix, const struct indexed *want) {
    uint8_t *bytes = fresh_bytes(want->room);
    struct deckmarten_indexed got = deckmarten_index(ix->run, ix->events, ix->event_words, bytes, want->room);
    char what[100];
    snprintf(what, sizeof what, "library: refusal %u headers %zu bytes %zu", got.refusal, got.headers, got.bytes);
    if (got.refusal != want->refusal || got.headers != want->headers || got.bytes != want->bytes) differs_index(ix, want, what);
    if (!holds_bytes(bytes, want->room, ix->bytes, want->refusal ? 0 : want->bytes)) differs_index(ix, want, "library: other bytes");
    if (!want->refusal) check_read_back(ix, want, bytes);
    refused[want->refusal]++;
}

/* An index in all its rooms; how many they are. */
static uint64_t check_index(void) {
    struct index_frame f;
    memcpy(&f, take(sizeof f), sizeof f);
    size_t entry_bytes = ((size_t)DECKMARTEN_SIZE_ENTRY * f.headers + 3) / 4 * 4, rooms = f.rooms;
    const uint8_t *at = take(4 * (size_t)f.event_words + f.headers * sizeof(struct header_words) + entry_bytes + rooms * sizeof(struct indexed));
    struct index ix = {{f.refusal, both_words(f.place), both_words(f.events), both_words(f.errors)}, (const uint32_t *)at, f.event_words, 0, f.headers, 0};
    ix.headers = (const struct header_words *)(ix.events + f.event_words);
    ix.bytes = (const uint8_t *)(ix.headers + f.headers);
    const struct indexed *wanted = (const struct indexed *)(ix.bytes + entry_bytes);
    for (size_t i = 0; i < rooms; i++) {
        if (wanted[i].refusal >= REFUSALS) broken("a wrong frame");
        check_in_room(&ix, wanted + i);
    }
    indexes += rooms;
    return rooms;
}

/* What is at a position in any bytes. */
static void check_found(void) {
    struct found_frame f;
    memcpy(&f, take(sizeof f), sizeof f);
    const uint8_t *bytes = take(((size_t)f.bytes + 3) / 4 * 4);
    size_t at = both_words(f.at);
    struct deckmarten_header got = deckmarten_header_at(bytes, f.bytes, at);
    entries_read++;
    if (same_header(got, f.found, &f.header, at + DECKMARTEN_SIZE_ENTRY)) return;
    printf("differs %" PRIu64 " header %zu ", cases, at);
    print_hex(bytes, f.bytes);
    printf("\nlibrary: found %u place %zu parts %zu array %u events %zu next %zu\n", got.found, got.place, got.parts, got.array, got.events, got.next);
    printf("wanted: found %u place %u parts %u array %u events %u", f.found, f.header.place, f.header.parts, f.header.array, f.header.events);
    finish_difference();
}

#endif
