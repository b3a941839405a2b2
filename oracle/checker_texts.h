/* The part of ./differ's checker that has texts: lexing, the joined entry and the verdict on a text, in several rooms; and whether a list
 * of records fits. What must come is in the frames, by lexer/mod.rs and document.rs compiled unchanged over stand-ins for the files
 * that are not here, and by a recogniser of the token grammar that is written apart from the parser. */
#ifndef CHECKER_TEXTS_H
#define CHECKER_TEXTS_H

#include "checker.h"

struct text_frame {
    uint32_t mode, bytes, record_bytes, event_words, error_words, rooms;
};

struct rooms {
    uint32_t record_bytes, event_words, error_words;
};

struct lexed {
    uint32_t refusal, place, base, records;
};

struct verdict {
    uint32_t fits, refusal, place;
};

/* What must come in one room. */
struct in_room {
    struct rooms room;
    struct lexed lexed;
    uint32_t lexed_bytes;
    struct lexed parsed;
    uint32_t events, errors;
    struct rooms written;
    struct verdict verdict;
};

struct fits_frame {
    uint32_t base, bytes, event_room;
    struct verdict verdict;
    uint32_t regular, quiet;
};

/* A text with all that it gives. */
struct text {
    struct text_frame frame;
    const uint8_t *bytes, *records;
    const uint32_t *events, *errors;
};

static struct room record_room;

/* The record buffer, which must hold so many of the expected bytes, and otherwise what it held before. */
static uint8_t *fresh_bytes(size_t bytes) {
    grow(&record_room, bytes + 2 * BORDER);
    memset(record_room.at, UNTOUCHED_BYTE, bytes + 2 * BORDER);
    return record_room.at + BORDER;
}

static bool holds_bytes(const uint8_t *buffer, size_t bytes, const uint8_t *expected, size_t written) {
    if (memcmp(buffer, expected, written)) return false;
    for (size_t i = written; i < bytes + BORDER; i++)
        if (buffer[i] != UNTOUCHED_BYTE) return false;
    for (size_t i = 1; i <= BORDER; i++)
        if (*(buffer - i) != UNTOUCHED_BYTE) return false;
    return true;
}

/* Prints the text and its room; what was given and what was wanted follow. */
static void print_case(const struct text *t, const struct in_room *want) {
    printf("differs %" PRIu64 " mode:%u text %u %u %u ", cases, t->frame.mode, want->room.record_bytes, want->room.event_words, want->room.error_words);
    print_hex(t->bytes, t->frame.bytes);
    printf("\n");
}

static void print_records(const uint8_t *bytes, size_t count) {
    printf(" |");
    for (size_t i = 0; i + 6 <= count; i += 6) {
        uint32_t length, kind = bytes[i + 4] + 256u * bytes[i + 5];
        memcpy(&length, bytes + i, 4);
        if (kind == UNTOUCHED_BYTE * 257u)
            printf(" -");
        else
            printf(" %u:%u", kind, length);
    }
}

static _Noreturn void finish_difference(void) {
    printf("\n");
    fflush(stdout);
    exit(1);
}

static void check_lex(const struct text *t, const struct in_room *want) {
    size_t room = want->room.record_bytes;
    uint8_t *records = fresh_bytes(room);
    struct deckmarten_lexed got = deckmarten_lex(t->bytes, t->frame.bytes, records, room);
    if (got.refusal == want->lexed.refusal && got.place == want->lexed.place && got.base == want->lexed.base &&
        got.records == want->lexed.records && holds_bytes(records, room, t->records, want->lexed_bytes))
        return;
    print_case(t, want);
    printf("lex: %u %zu %u %zu", got.refusal, got.place, got.base, got.records);
    print_records(records, room);
    printf("\nlexer/mod.rs: %u %u %u %u", want->lexed.refusal, want->lexed.place, want->lexed.base, want->lexed.records);
    print_records(t->records, want->lexed_bytes);
    finish_difference();
}

static void check_parse(const struct text *t, const struct in_room *want) {
    const struct rooms *room = &want->room, *written = &want->written;
    uint8_t *records = fresh_bytes(room->record_bytes);
    uint32_t *events = fresh(&event_room, room->event_words), *errors = fresh(&error_room, room->error_words);
    struct deckmarten_options options = {t->frame.mode};
    struct deckmarten_text_answer got =
        deckmarten_parse_text(t->bytes, t->frame.bytes, options, records, room->record_bytes, events, room->event_words, errors, room->error_words);
    if (got.refusal == want->parsed.refusal && got.place == want->parsed.place && got.base == want->parsed.base &&
        got.records == want->parsed.records && got.events == want->events && got.errors == want->errors &&
        holds_bytes(records, room->record_bytes, t->records, written->record_bytes) &&
        holds(events, room->event_words, t->events, written->event_words) &&
        holds(errors, room->error_words, t->errors, written->error_words))
        return;
    print_case(t, want);
    printf("parse_text: %u %zu %u %zu %zu %zu", got.refusal, got.place, got.base, got.records, got.events, got.errors);
    print_records(records, room->record_bytes);
    print_words(events, room->event_words);
    print_words(errors, room->error_words);
    printf("\nlexer/mod.rs and document.rs: %u %u %u %u %u %u", want->parsed.refusal, want->parsed.place, want->parsed.base,
           want->parsed.records, want->events, want->errors);
    print_records(t->records, written->record_bytes);
    print_words(t->events, written->event_words);
    print_words(t->errors, written->error_words);
    finish_difference();
}

static bool same_verdict(struct deckmarten_verdict got, const struct verdict *want) {
    return got.fits == want->fits && got.refusal == want->refusal && got.place == want->place;
}

static void print_verdicts(const char *what, struct deckmarten_verdict got, const struct verdict *want) {
    printf("%s: fits %d refusal %u place %zu\nrecogniser: fits %u refusal %u place %u", what, got.fits, got.refusal, got.place, want->fits,
           want->refusal, want->place);
}

static void check_text_fits(const struct text *t, const struct in_room *want) {
    uint8_t *records = fresh_bytes(want->room.record_bytes);
    uint32_t *events = fresh(&event_room, want->room.event_words);
    struct deckmarten_verdict got =
        deckmarten_text_fits(t->bytes, t->frame.bytes, records, want->room.record_bytes, events, want->room.event_words);
    if (same_verdict(got, &want->verdict)) return;
    print_case(t, want);
    print_verdicts("text_fits", got, &want->verdict);
    finish_difference();
}

/* A text in all its rooms; how many they are. */
static uint64_t check_text(void) {
    struct text t;
    memcpy(&t.frame, take(sizeof t.frame), sizeof t.frame);
    size_t text_bytes = ((size_t)t.frame.bytes + 3) / 4 * 4, record_bytes = ((size_t)t.frame.record_bytes + 3) / 4 * 4;
    size_t words = (size_t)t.frame.event_words + t.frame.error_words;
    t.bytes = take(text_bytes + record_bytes + 4 * words + t.frame.rooms * sizeof(struct in_room));
    t.records = t.bytes + text_bytes;
    t.events = (const uint32_t *)(t.records + record_bytes);
    t.errors = t.events + t.frame.event_words;
    const struct in_room *rooms = (const struct in_room *)(t.errors + t.frame.error_words);
    for (uint32_t i = 0; i < t.frame.rooms; i++) {
        if (rooms[i].parsed.refusal >= REFUSALS) broken("a wrong frame");
        check_lex(&t, &rooms[i]);
        check_parse(&t, &rooms[i]);
        check_text_fits(&t, &rooms[i]);
        refused[rooms[i].parsed.refusal]++;
    }
    for (uint32_t i = 0; i < t.frame.record_bytes; i += 6) seen_kinds |= 1u << t.records[i + 4];
    see(t.events, t.frame.event_words, t.errors, t.frame.error_words);
    return t.frame.rooms;
}

/* Whether a list fits, is regular, and gives a quiet run in the room that there is for events, with none for errors. That does not hang on
 * the mode, so both are taken in turn. */
static void check_fits(void) {
    struct fits_frame f;
    memcpy(&f, take(sizeof f), sizeof f);
    const uint8_t *bytes = take(((size_t)f.bytes + 3) / 4 * 4);
    uint32_t *events = fresh(&event_room, f.event_room), *errors = fresh(&error_room, 0);
    struct deckmarten_verdict got = deckmarten_fits(bytes, f.bytes, f.base, events, f.event_room);
    struct deckmarten_options options = {cases % 2 ? DECKMARTEN_MODE_BRACE : DECKMARTEN_MODE_CRATE};
    struct deckmarten_answer answer = deckmarten_parse_document(bytes, f.bytes, f.base, options, events, f.event_room, errors, 0);
    bool quiet = deckmarten_is_quiet(answer, events, f.event_room);
    bool regular = f.regular == 2 || deckmarten_is_regular(bytes, f.bytes, f.base);
    if (same_verdict(got, &f.verdict) && quiet == f.quiet && regular == (f.regular != 0)) {
        refused[f.verdict.refusal]++;
        return;
    }
    printf("differs %" PRIu64 " fits %u %u ", cases, f.base, f.event_room);
    print_hex(bytes, f.bytes);
    printf("\n");
    print_verdicts("fits", got, &f.verdict);
    printf("\nlibrary: quiet %d regular %d\noracle: quiet %u regular %u", quiet, regular, f.quiet, f.regular != 0);
    finish_difference();
}

#endif
