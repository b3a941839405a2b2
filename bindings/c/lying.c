/* Breaks what a caller owes, to show that memcheck sees it: lends a half of a buffer and says that it is whole. Run with the word `records`,
 * `events`, `text` or `lexed`, for records that are read, events, a text, and records that are written; or `index`, `entries` or `listed`, for an
 * index that is written, one that is read, and events that are read. */
#include <stdlib.h>
#include <string.h>

#include "deckmarten.h"

static const char *lie;

/* A buffer of this size, filled with a byte; only its first half if the lie is about it. */
static void *lent(const char *name, size_t size, int byte) {
    size_t whole = strcmp(lie, name) ? size : size / 2;
    return memset(malloc(whole), byte, whole);
}

int main(int count, char **words) {
    if (count != 2) return 2;
    lie = words[1];
    uint8_t *records = lent("records", DECKMARTEN_RECORD_BYTES(2), 0), *text = lent("text", 2, '\n');
    uint8_t *lexed = lent("lexed", DECKMARTEN_RECORD_BYTES(4), 0);
    uint32_t *events = lent("events", sizeof *events * DECKMARTEN_SIZE_EVENT * 2, 0), errors;
    for (size_t i = 0; i < (strcmp(lie, "records") ? 2 : 1); i++)
        memcpy(records + DECKMARTEN_SIZE_RECORD * i, "\1\0\0\0\12", DECKMARTEN_SIZE_RECORD);
    deckmarten_parse_document(records, DECKMARTEN_RECORD_BYTES(2), 0, (struct deckmarten_options){0}, events, DECKMARTEN_SIZE_EVENT * 2, &errors, 0);
    deckmarten_lex(text, 2, lexed, DECKMARTEN_RECORD_BYTES(4));
    /* a header of one event, twice */
    static const uint32_t event[DECKMARTEN_SIZE_EVENT] = {DECKMARTEN_EVENT_STD_TABLE_OPEN, 0, 0, 1};
    uint8_t *index = lent("index", DECKMARTEN_INDEX_BYTES(2), 0), *entries = lent("entries", DECKMARTEN_SIZE_ENTRY, 0);
    uint32_t *listed = lent("listed", 2 * sizeof event, 0);
    for (size_t i = 0; i < (strcmp(lie, "listed") ? 2 : 1); i++) memcpy(listed + DECKMARTEN_SIZE_EVENT * i, event, sizeof event);
    memcpy(entries, "\21\0\0\0\1", 6);
    deckmarten_index((struct deckmarten_answer){0, 0, 2, 0}, listed, DECKMARTEN_SIZE_EVENT * 2, index, DECKMARTEN_INDEX_BYTES(2));
    deckmarten_header_at(entries, DECKMARTEN_SIZE_ENTRY, 0);
    free(index);
    free(entries);
    free(listed);
    free(records);
    free(text);
    free(lexed);
    free(events);
    return 0;
}
