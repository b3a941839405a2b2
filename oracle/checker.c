/* The checker of ./differ: reads frames from its input (src/frame.rs says what they are), calls the library on each list and text, and
 * compares the answer and every word of the buffers with what the oracle gave: document.rs and lexer/mod.rs compiled unchanged over
 * stand-ins for the files that are not here. This file has the lists; checker_texts.h has the texts, and whether a list fits;
 * checker_index.h has the index of headers. Some lists go to the document entry a second time, as token structs. Stops at the first difference and prints it. Ends with 0 if nothing
 * differs, 1 if something does, 2 if the frames are not whole. */
#include "checker.h"
#include "checker_index.h"
#include "checker_texts.h"

/* One list in so many is compared as structs too, and each long one: the call clears 393,216 bytes first, which takes an emulator
 * about a millisecond. It is odd, so that lists with ample room and with little come in turn. */
#define STRUCTS_EACH 499
#define LONG 6000

struct frame {
    uint32_t entry, base, bytes, event_room, error_room;
    uint32_t refusal, place, events, errors;
    uint32_t event_words, error_words;
};

typedef struct deckmarten_answer parse(const uint8_t *, size_t, uint32_t, struct deckmarten_options, uint32_t *, size_t, uint32_t *, size_t);

static parse *const entries[4] = {deckmarten_parse_document, deckmarten_parse_key, deckmarten_parse_simple_key, deckmarten_parse_value};
static const char *const names[4] = {"document", "key", "simple_key", "value"};

static struct room token_room;
static uint64_t documents, as_structs, texts, verdicts;
static struct deckmarten_options options; /* of the case that is compared */

/* The token structs of so many records. What lies between them is not 0. */
static const struct deckmarten_token *structs_of(const uint8_t *bytes, size_t count) {
    struct deckmarten_token *tokens;
    grow(&token_room, (count + 1) * sizeof *tokens);
    memset(token_room.at, 0xA5, (count + 1) * sizeof *tokens);
    tokens = (struct deckmarten_token *)token_room.at;
    for (size_t i = 0; i < count; i++) {
        memcpy(&tokens[i].length, bytes + 6 * i, 4);
        memcpy(&tokens[i].kind, bytes + 6 * i + 4, 2);
    }
    return tokens;
}

/* Prints the case, what the library gave and what was expected. */
static _Noreturn void differs(const struct frame *f, const char *what, const uint8_t *bytes, const uint32_t *wanted, struct deckmarten_answer a,
                              const uint32_t *events, const uint32_t *errors) {
    printf("differs %" PRIu64 " mode:%u %s %u %u %u ", cases, options.mode, names[f->entry], f->base, f->event_room, f->error_room);
    print_hex(bytes, f->bytes);
    printf("\n%s %u %zu %zu %zu", what, a.refusal, a.place, a.events, a.errors);
    print_words(events, f->event_room);
    print_words(errors, f->error_room);
    printf("\ndocument.rs: %u %u %u %u", f->refusal, f->place, f->events, f->errors);
    print_words(wanted, f->event_words);
    print_words(wanted + f->event_words, f->error_words);
    printf("\n");
    fflush(stdout);
    exit(1);
}

/* Stops unless the answer and both buffers are as expected. */
static void compare(const struct frame *f, const char *what, const uint8_t *bytes, const uint32_t *wanted, struct deckmarten_answer a,
                    const uint32_t *events, const uint32_t *errors) {
    if (a.refusal != f->refusal || a.place != f->place || a.events != f->events || a.errors != f->errors ||
        !holds(events, f->event_room, wanted, f->event_words) ||
        !holds(errors, f->error_room, wanted + f->event_words, f->error_words))
        differs(f, what, bytes, wanted, a, events, errors);
}

/* The same list as token structs, at the document entry. */
static void check_structs(const struct frame *f, const uint8_t *bytes, const uint32_t *wanted) {
    size_t count = f->bytes / 6;
    uint32_t *events = fresh(&event_room, f->event_room), *errors = fresh(&error_room, f->error_room);
    compare(f, "by structs: ", bytes, wanted,
            deckmarten_parse_tokens(structs_of(bytes, count), count, f->base, options, events, f->event_room, errors, f->error_room), events, errors);
    as_structs++;
}

static void check_case(uint32_t mode) {
    struct frame f;
    options.mode = mode;
    memcpy(&f, take(sizeof f), sizeof f);
    if (f.entry > 3 || (f.refusal > 8 && f.refusal != DECKMARTEN_REFUSAL_MODE) || f.event_words > f.event_room || f.error_words > f.error_room) broken("a wrong frame");
    size_t whole = ((size_t)f.bytes + 3) / 4 * 4;
    const uint8_t *bytes = take(whole + 4 * ((size_t)f.event_words + f.error_words));
    const uint32_t *wanted = (const uint32_t *)(bytes + whole);
    uint32_t *events = fresh(&event_room, f.event_room), *errors = fresh(&error_room, f.error_room);
    compare(&f, "library:    ", bytes, wanted, entries[f.entry](bytes, f.bytes, f.base, options, events, f.event_room, errors, f.error_room), events, errors);
    if (f.entry == 0 && f.bytes % 6 == 0 && (documents++ % STRUCTS_EACH == 0 || f.bytes > LONG)) check_structs(&f, bytes, wanted);
    see(wanted, f.event_words, wanted + f.event_words, f.error_words);
    cases++;
    refused[f.refusal]++;
}

static void show_note(void) {
    uint32_t length = word();
    const char *text = take(((size_t)length + 3) / 4 * 4);
    fprintf(stderr, "  %.*s: %" PRIu64 " compared so far\n", (int)length, text, cases);
}

static int finish(void) {
    uint64_t low = word(), sent = low | (uint64_t)word() << 32;
    if (sent != cases) broken("another number of cases was sent");
    printf("same %" PRIu64 " %" PRIu64 " %" PRIu64 " %" PRIu64 " %" PRIu64 " %" PRIu64 " %u %u %u", cases, as_structs, texts, verdicts,
           indexes, entries_read, seen_kinds, seen_events, seen_messages);
    for (int i = 0; i < REFUSALS; i++) printf(" %" PRIu64, refused[i]);
    printf("\n");
    return 0;
}

int main(void) {
    for (;;) {
        switch (word()) {
        case 0: return finish();
        case 1: check_case(DECKMARTEN_MODE_CRATE); break;
        case 2: show_note(); break;
        case 3: texts++, cases += check_text(); break;
        case 4: check_fits(), verdicts++, cases++; break;
        case 5: cases += check_index(); break;
        case 6: check_found(), cases++; break;
        case 7: check_case(word()); break;
        default: broken("a frame of no known sort");
        }
    }
}
