/* Shows what the library makes of files of token records: events and errors by name, and whether the run was quiet.
 *
 *   show [--key | --simple-key | --value] FILE...
 *
 * Without an option a file is read as a document. Exit status: 0 if every run was quiet, 1 if one was not, 2 if a file cannot be read. */
#define PROGRAM "show"
#include "showing.h"

typedef struct deckmarten_answer parse(const uint8_t *, size_t, uint32_t, struct deckmarten_options, uint32_t *, size_t, uint32_t *, size_t);

/* Shows one file and answers whether its run was quiet. */
static bool show(parse *entry, const char *name) {
    size_t bytes;
    uint8_t *records = read_file(name, DECKMARTEN_RECORD_BYTES(DECKMARTEN_LIMIT_RECORDS), &bytes);
    /* room for all that so many records can give, so refusals 7 and 8 do not come */
    size_t count = bytes / DECKMARTEN_SIZE_RECORD;
    size_t event_words = DECKMARTEN_EVENT_WORDS(count), error_words = DECKMARTEN_ERROR_WORDS(count);
    uint32_t *events = allocate(sizeof *events * event_words), *errors = allocate(sizeof *errors * error_words);

    struct deckmarten_answer answer = entry(records, bytes, 0, (struct deckmarten_options){DECKMARTEN_MODE_CRATE}, events, event_words, errors, error_words);
    printf("%s: events %zu, errors %zu\n", name, answer.events, answer.errors);
    show_refusal(answer.refusal, answer.place);
    for (size_t i = 0; i < answer.events; i++) {
        show_event(events + DECKMARTEN_SIZE_EVENT * i);
        printf("\n");
    }
    for (size_t i = 0; i < answer.errors; i++) show_error(errors + DECKMARTEN_SIZE_ERROR * i);
    bool quiet = deckmarten_is_quiet(answer, events, event_words);
    printf("  %s\n", quiet ? "quiet" : "not quiet");
    free(records);
    free(events);
    free(errors);
    return quiet;
}

static parse *entry_of(const char *option) {
    if (!strcmp(option, "--key")) return deckmarten_parse_key;
    if (!strcmp(option, "--simple-key")) return deckmarten_parse_simple_key;
    if (!strcmp(option, "--value")) return deckmarten_parse_value;
    stop("no such option: ", option);
}

int main(int count, char **words) {
    int first = count > 1 && words[1][0] == '-' ? 2 : 1, all_quiet = 1;
    if (first >= count) stop("usage: show [--key | --simple-key | --value] FILE...", "");
    parse *entry = first == 2 ? entry_of(words[1]) : deckmarten_parse_document;
    for (int i = first; i < count; i++) all_quiet &= show(entry, words[i]);
    return all_quiet ? 0 : 1;
}
