/* The longest and the deepest lists at the four entries, in a thread with a stack of 256 KiB, with every buffer between pages that
 * must not be touched: once with its start, once with its end against one. Checks refusals, places and counts, and prints how much of
 * the stack was used. What is expected was taken from document.rs compiled unchanged over stand-ins for the files that are not
 * here (the oracle); ./differ compares whole answers. */
#include "deckmarten.h"
#include "fenced.h"
#include "lists.h"

typedef struct deckmarten_answer parse(const uint8_t *, size_t, uint32_t, struct deckmarten_options, uint32_t *, size_t, uint32_t *, size_t);
static parse *const entries[4] = {deckmarten_parse_document, deckmarten_parse_key, deckmarten_parse_simple_key, deckmarten_parse_value};
static const char *const names[4] = {"document", "key", "simple_key", "value"};

static struct fenced record_memory, event_memory, error_memory;

/* One list, as the thread reads it. */
struct run {
    const struct list *list;
    size_t records;
    int entry, at_end;
    struct deckmarten_options options;
    struct deckmarten_answer answer;
};

static void *read_list(void *data) {
    struct run *run = data;
    size_t bytes = DECKMARTEN_SIZE_RECORD * run->records;
    size_t event_words = DECKMARTEN_EVENT_WORDS(run->records), error_words = DECKMARTEN_ERROR_WORDS(run->records);
    run->answer = entries[run->entry](lend(record_memory, bytes, run->at_end), bytes, 0, run->options,
                                      lend(event_memory, sizeof(uint32_t) * event_words, run->at_end), event_words,
                                      lend(error_memory, sizeof(uint32_t) * error_words, run->at_end), error_words);
    return NULL;
}

static void check(const struct run *run) {
    const struct wanted *wanted = &run->list->wanted[run->entry];
    const struct deckmarten_answer *got = &run->answer;
    if (got->refusal == wanted->refusal && got->place == wanted->place && got->events == wanted->events && got->errors == wanted->errors)
        return;
    fprintf(stderr, "limits: %s at entry %s: %u %zu %zu %zu, expected %u %zu %zu %zu\n", run->list->name, names[run->entry],
            got->refusal, got->place, got->events, got->errors, wanted->refusal, wanted->place, wanted->events, wanted->errors);
    exit(1);
}

int main(void) {
    record_memory = fence((size_t)DECKMARTEN_SIZE_RECORD * DECKMARTEN_LIMIT_RECORDS);
    event_memory = fence(sizeof(uint32_t) * DECKMARTEN_EVENT_WORDS(DECKMARTEN_LIMIT_RECORDS));
    error_memory = fence(sizeof(uint32_t) * DECKMARTEN_ERROR_WORDS(DECKMARTEN_LIMIT_RECORDS));
    struct fenced stack = fence(STACK);
    size_t idle = stack_used(stack, do_nothing, NULL), most = 0;
    for (size_t i = 0; i < LISTS; i++) {
        for (int at_end = 0; at_end < 2; at_end++) {
            struct run run = {.list = &lists[i], .records = count_records(&lists[i]), .at_end = at_end};
            write_records(&lists[i], lend(record_memory, DECKMARTEN_SIZE_RECORD * run.records, at_end));
            for (run.entry = 0; run.entry < 4; run.entry++) {
                for (run.options.mode = DECKMARTEN_MODE_CRATE; run.options.mode <= DECKMARTEN_MODE_BRACE; run.options.mode++) {
                    size_t used = stack_used(stack, read_list, &run);
                    if (used > most) most = used;
                    check(&run);
                }
            }
        }
    }
    printf("%d lists at four entries in both modes: at most %zu of %zu bytes of stack used, %zu of them by a thread that does nothing\n", LISTS, most,
           STACK, idle);
    return 0;
}
