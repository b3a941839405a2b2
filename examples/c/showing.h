/* What show.c and text.c share: reading a file, and printing events and errors by name. PROGRAM is the name in their messages. */
#include <stdio.h>
#include <stdlib.h>
#include <string.h>

#include "deckmarten.h"
#include "deckmarten_text.h"

static _Noreturn void stop(const char *what, const char *name) {
    fprintf(stderr, PROGRAM ": %s%s\n", what, name);
    exit(2);
}

/* Memory that is never null, also of no size. */
static void *allocate(size_t size) {
    void *memory = malloc(size ? size : 1);
    if (!memory) stop("no memory", "");
    return memory;
}

/* The bytes of a file, and how many they are. Of a longer file than `limit` one byte more is enough to have it refused. */
static uint8_t *read_file(const char *name, size_t limit, size_t *bytes) {
    FILE *file = fopen(name, "rb");
    if (!file) stop("cannot open ", name);
    uint8_t *all = allocate(limit + 1);
    *bytes = fread(all, 1, limit + 1, file);
    if (ferror(file)) stop("cannot read ", name);
    fclose(file);
    uint8_t *content = allocate(*bytes);
    memcpy(content, all, *bytes);
    free(all);
    return content;
}

/* An event's name, its place, and how it is quoted. */
static void show_event(const uint32_t *event) {
    printf("  %s %u..%u", deckmarten_event_text(event[0]), event[2], event[3]);
    if (event[1] != DECKMARTEN_ENCODING_NONE) printf(" %s", deckmarten_encoding_text(event[1]));
}

static void show_error(const uint32_t *error) {
    printf("  line %u, at %u..%u: %s", error[6], error[4], error[5], deckmarten_message_text(error[0]));
    if (error[1] != DECKMARTEN_EXPECTED_NOTHING) printf(", expected %s", deckmarten_expected_text(error[1]));
    printf(" (in %u..%u)\n", error[2], error[3]);
}

static void show_refusal(uint32_t refusal, size_t place) {
    if (refusal) printf("  refused %u at %zu: %s\n", refusal, place, deckmarten_refusal_text(refusal));
}
