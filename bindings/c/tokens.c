/* Tests deckmarten_parse_tokens: for the lists of limits.c, and for wrong ones, it must answer and leave what deckmarten_parse_document
 * does for the records of the same lengths and kinds. deckmarten_put_record must write each of these records from its token.
 *
 *   tokens KIB      compare in a thread with a stack of so many KiB; a signal ends the program if that is too little
 *   tokens time     how long four tokens take, and how long their records take at deckmarten_parse_document */
#define _POSIX_C_SOURCE 200809L
#include <pthread.h>
#include <stdio.h>
#include <stdlib.h>
#include <time.h>

#include "deckmarten.h"
#include "lists.h"

#define MOST ((size_t)DECKMARTEN_LIMIT_RECORDS + 1)
#define EVENT_WORDS DECKMARTEN_EVENT_WORDS(MOST)
#define ERROR_WORDS DECKMARTEN_ERROR_WORDS(MOST)
#define UNTOUCHED 0xa5

static uint8_t records[DECKMARTEN_SIZE_RECORD * MOST];
static struct deckmarten_token tokens[MOST];
static uint32_t events[2][EVENT_WORDS], errors[2][ERROR_WORDS];
static const struct deckmarten_options as_crate = {DECKMARTEN_MODE_CRATE};
static int compared;

/* Compares the two entries on the first so many records. */
static void compare(const char *name, size_t count, uint32_t base) {
    memset(events, UNTOUCHED, sizeof events);
    memset(errors, UNTOUCHED, sizeof errors);
    for (size_t i = 0; i < count; i++) {
        const uint8_t *record = records + DECKMARTEN_SIZE_RECORD * i;
        uint8_t again[DECKMARTEN_SIZE_RECORD];
        tokens[i].length = record[0] + 256u * record[1] + 65536u * record[2] + 16777216u * record[3];
        tokens[i].kind = (uint16_t)(record[4] + 256u * record[5]);
        if (deckmarten_put_record(again, tokens[i].kind, tokens[i].length) != again + sizeof again || memcmp(again, record, sizeof again)) {
            fprintf(stderr, "tokens: %s: record %zu is written otherwise\n", name, i);
            exit(1);
        }
    }
    struct deckmarten_answer a = deckmarten_parse_tokens(tokens, count, base, as_crate, events[0], EVENT_WORDS, errors[0], ERROR_WORDS);
    struct deckmarten_answer b =
        deckmarten_parse_document(records, DECKMARTEN_SIZE_RECORD * count, base, as_crate, events[1], EVENT_WORDS, errors[1], ERROR_WORDS);
    compared++;
    if (a.refusal == b.refusal && a.place == b.place && a.events == b.events && a.errors == b.errors &&
        !memcmp(events[0], events[1], sizeof events[0]) && !memcmp(errors[0], errors[1], sizeof errors[0]))
        return;
    fprintf(stderr, "tokens: %s: %u %zu %zu %zu from tokens, %u %zu %zu %zu from records, or the buffers differ\n", name, a.refusal, a.place,
            a.events, a.errors, b.refusal, b.place, b.events, b.errors);
    exit(1);
}

/* Three records, the second with these bytes. */
static void compare_wrong(const char *name, const char *bytes) {
    write_text("a=a", records);
    memcpy(records + DECKMARTEN_SIZE_RECORD, bytes, DECKMARTEN_SIZE_RECORD);
    compare(name, 3, 0);
}

static void *compare_all(void *data) {
    for (int i = 0; i < LISTS; i++) {
        write_records(&lists[i], records);
        compare(lists[i].name, count_records(&lists[i]), 7);
    }
    compare("no token", 0, DECKMARTEN_LIMIT_BYTES);
    compare("base too high", 1, DECKMARTEN_LIMIT_BYTES + 1);
    compare_wrong("kind 0", "\1\0\0\0\0\0");
    compare_wrong("kind 17", "\1\0\0\0\21\0");
    compare_wrong("kind 256 and more", "\1\0\0\0\17\1");
    compare_wrong("length 0", "\0\0\0\0\17\0");
    compare_wrong("the greatest length", "\377\377\377\377\17\0");
    for (size_t i = 0; i < MOST; i++) write_text("a", records + DECKMARTEN_SIZE_RECORD * i);
    compare("a record too many", MOST, 0);
    return data;
}

/* `a`, `=`, `a` and the end, as tokens and as records, 100,000 times each. */
static int take_time(void) {
    static const struct deckmarten_token four[4] = {
        {1, DECKMARTEN_KIND_ATOM}, {1, DECKMARTEN_KIND_EQUALS}, {1, DECKMARTEN_KIND_ATOM}, {0, DECKMARTEN_KIND_EOF}};
    uint8_t *end = records;
    for (int i = 0; i < 4; i++) end = deckmarten_put_record(end, four[i].kind, four[i].length);
    for (int by_tokens = 1; by_tokens >= 0; by_tokens--) {
        struct timespec start, stop;
        size_t read = 0;
        clock_gettime(CLOCK_MONOTONIC, &start);
        for (int i = 0; i < 100000; i++) {
            struct deckmarten_answer answer =
                by_tokens ? deckmarten_parse_tokens(four, 4, 0, as_crate, events[0], EVENT_WORDS, errors[0], ERROR_WORDS)
                          : deckmarten_parse_document(records, (size_t)(end - records), 0, as_crate, events[0], EVENT_WORDS, errors[0], ERROR_WORDS);
            read += answer.events;
        }
        clock_gettime(CLOCK_MONOTONIC, &stop);
        double nanoseconds = 1e9 * (double)(stop.tv_sec - start.tv_sec) + (double)(stop.tv_nsec - start.tv_nsec);
        printf("four %s: %.0f nanoseconds a call, %zu events\n", by_tokens ? "tokens" : "records", nanoseconds / 100000, read);
    }
    return 0;
}

/* The thread's stack has a page below it that must not be touched. */
int main(int count, char **words) {
    pthread_attr_t attributes;
    pthread_t thread;
    if (count == 2 && !strcmp(words[1], "time")) return take_time();
    size_t stack = count == 2 ? (size_t)1024 * strtoul(words[1], NULL, 10) : 0;
    if (pthread_attr_init(&attributes) || pthread_attr_setstacksize(&attributes, stack)) return 2;
    if (pthread_create(&thread, &attributes, compare_all, NULL) || pthread_join(thread, NULL)) return 2;
    printf("%d lists of tokens are read as their records, with %zu bytes of stack\n", compared, stack);
    return 0;
}
