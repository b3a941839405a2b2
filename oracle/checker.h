/* What the checker of ./differ does with all frames: reading them, and buffers with borders. src/frame.rs says what a frame is. */
#ifndef CHECKER_H
#define CHECKER_H

#include <inttypes.h>
#include <stdbool.h>
#include <stdio.h>
#include <stdlib.h>
#include <string.h>
#include <unistd.h>

#include "../include/deckmarten.h"

/* What buffers of words hold beforehand. No word that is written can be it, since none is above 16,777,216. */
#define UNTOUCHED 0xA5C3F00Du
/* What buffers of bytes hold beforehand. A byte of a record's length may be it: then it goes unseen that it was not written. */
#define UNTOUCHED_BYTE 0xA5
/* Bytes that are read at a time. */
#define CHUNK (1 << 20)
/* Words on each side of a buffer that must stay as they are. */
#define BORDER 8

/* A piece of memory that grows as it must. */
struct room {
    unsigned char *at;
    size_t size;
};

static struct room input, event_room, error_room;
static size_t start, end; /* of what was read into `input` and not yet taken */
/* Comparisons so far, and how often each refusal was answered. */
#define REFUSALS 16
static uint64_t cases, refused[REFUSALS];
/* A bit for each kind of token and of event and each message that occurred. */
static uint32_t seen_kinds, seen_events, seen_messages;

static _Noreturn void broken(const char *what) {
    fprintf(stderr, "checker: %s\n", what);
    exit(2);
}

static void grow(struct room *room, size_t size) {
    if (room->size >= size) return;
    room->size = 2 * size;
    room->at = realloc(room->at, room->size);
    if (!room->at) broken("no memory");
}

/* The next so many bytes of the input. They stay where they are until the next call. */
static const void *take(size_t size) {
    if (end - start < size) {
        grow(&input, size > CHUNK ? size : CHUNK);
        memmove(input.at, input.at + start, end - start);
        end -= start;
        start = 0;
    }
    while (end - start < size) {
        ssize_t got = read(0, input.at + end, input.size - end);
        if (got <= 0) broken("the frames end too early");
        end += (size_t)got;
    }
    start += size;
    return input.at + start - size;
}

static uint32_t word(void) { return *(const uint32_t *)take(4); }

/* A buffer of so many words between its borders, all untouched. */
static uint32_t *fresh(struct room *room, size_t words) {
    grow(room, 4 * (words + 2 * BORDER));
    uint32_t *at = (uint32_t *)room->at;
    for (size_t i = 0; i < words + 2 * BORDER; i++) at[i] = UNTOUCHED;
    return at + BORDER;
}

/* Whether the buffer holds the expected words, and all others are as they were, those of the borders too. */
static bool holds(const uint32_t *buffer, size_t words, const uint32_t *expected, size_t written) {
    if (memcmp(buffer, expected, 4 * written)) return false;
    for (size_t i = written; i < words + BORDER; i++)
        if (buffer[i] != UNTOUCHED) return false;
    for (size_t i = 1; i <= BORDER; i++)
        if (*(buffer - i) != UNTOUCHED) return false;
    return true;
}

static void print_words(const uint32_t *words, size_t count) {
    printf(" |");
    for (size_t i = 0; i < count; i++) {
        if (words[i] == UNTOUCHED)
            printf(" -");
        else
            printf(" %" PRIu32, words[i]);
    }
}

static void print_hex(const uint8_t *bytes, size_t count) {
    printf("x:");
    for (size_t i = 0; i < count; i++) printf("%02x", bytes[i]);
}

/* Keeps which kinds of event and which messages occurred. */
static void see(const uint32_t *events, size_t event_words, const uint32_t *errors, size_t error_words) {
    for (size_t i = 0; i < event_words; i += DECKMARTEN_SIZE_EVENT) seen_events |= 1u << events[i] % 32;
    for (size_t i = 0; i < error_words; i += DECKMARTEN_SIZE_ERROR) seen_messages |= 1u << errors[i] % 32;
}

#endif
