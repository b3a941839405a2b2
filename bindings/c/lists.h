/* The lists of limits.c, with what the library must answer for each. */
#include "notation.h"

struct wanted {
    uint32_t refusal;
    size_t place, events, errors;
};

/* A list in the short notation: a head, a body that is repeated until the list has 65,536 records (not at all if it is empty), and a
 * tail. */
struct list {
    const char *name, *head, *body, *tail;
    struct wanted wanted[4]; /* at the entries document, key, simple_key, value */
};

#define FOUR(text) text text text text
#define THIRTY_TWO(text) FOUR(text text text text text text text text)
#define SIXTY_FOUR(text) THIRTY_TWO(text text)
#define NESTED_OPEN THIRTY_TWO("[{a=")
#define NESTED_CLOSE THIRTY_TWO("}]")

static const struct list lists[] = {
    {"comments", "", "#", "",
     {{0, 0, 65536, 32768}, {0, 0, 65537, 1}, {0, 0, 65536, 32769}, {0, 0, 65537, 1}}},
    {"newlines", "", "\n", "",
     {{0, 0, 65536, 0}, {0, 0, 65537, 1}, {0, 0, 65536, 2}, {0, 0, 65537, 1}}},
    {"equals signs", "", "=", "",
     {{0, 0, 65537, 65536}, {0, 0, 65537, 1}, {0, 0, 65536, 2}, {0, 0, 65536, 65537}}},
    {"dots", "", ".", "",
     {{0, 0, 131073, 0}, {0, 0, 131072, 1}, {0, 0, 65536, 2}, {0, 0, 1, 0}}},
    {"commas in an array", "[", ",", "",
     {{0, 0, 65537, 0}, {0, 0, 65537, 1}, {0, 0, 65536, 2}, {0, 0, 65537, 65536}}},
    {"empty brackets", "", "[]", "",
     {{0, 0, 65537, 1}, {0, 0, 65537, 1}, {0, 0, 65536, 2}, {0, 0, 65536, 1}}},
    {"pairs", "", "a=a\n", "",
     {{0, 0, 65536, 0}, {0, 0, 65536, 1}, {0, 0, 65536, 1}, {0, 0, 65536, 1}}},
    {"dotted key", "a", ".a", "$",
     {{0, 0, 65535, 1}, {0, 0, 65535, 0}, {0, 0, 65535, 1}, {0, 0, 1, 0}}},
    {"array", "[a", ",a", "]$",
     {{0, 0, 65535, 1}, {0, 0, 65536, 1}, {0, 0, 65535, 2}, {0, 0, 65535, 0}}},
    {"pair with an array", "a=[a", ",a", "]$",
     {{0, 0, 65535, 0}, {0, 0, 65535, 1}, {0, 0, 65535, 1}, {0, 0, 65535, 1}}},
    {"pair with an inline table", "a={a=a", ",a=a", "}$",
     {{0, 0, 65535, 0}, {0, 0, 65535, 1}, {0, 0, 65535, 1}, {0, 0, 65535, 1}}},
    {"array with comments", "a=[\n", "#\n", "]$",
     {{0, 0, 65535, 0}, {0, 0, 65535, 1}, {0, 0, 65535, 1}, {0, 0, 65535, 1}}},
    {"all kinds in turn", "", KINDS, "",
     {{0, 0, 73728, 8192}, {0, 0, 61442, 1}, {0, 0, 61440, 2}, {0, 0, 61440, 1}}},
    {"closing brackets", "a=", "]}", "",
     {{0, 0, 65537, 2}, {0, 0, 65536, 1}, {0, 0, 65536, 1}, {0, 0, 65536, 1}}},
    {"brackets skipped", "a={ ", "[{", "",
     {{0, 0, 65537, 2}, {0, 0, 65536, 1}, {0, 0, 65536, 1}, {0, 0, 65536, 1}}},
    {"arrays opened", "a=", "[", "",
     {{6, 66, 66, 0}, {0, 0, 65536, 1}, {0, 0, 65536, 1}, {0, 0, 65536, 1}}},
    {"deepest arrays", "a=" SIXTY_FOUR("["), "", "a" SIXTY_FOUR("]") "$",
     {{0, 0, 131, 0}, {0, 0, 131, 1}, {0, 0, 131, 1}, {0, 0, 131, 1}}},
    {"deepest inline tables", "a=" SIXTY_FOUR("{a="), "", "a" SIXTY_FOUR("}") "$",
     {{0, 0, 259, 0}, {0, 0, 259, 1}, {0, 0, 259, 1}, {0, 0, 259, 1}}},
    {"deepest", "a=" NESTED_OPEN, "", "a" NESTED_CLOSE "$",
     {{0, 0, 195, 0}, {0, 0, 195, 1}, {0, 0, 195, 1}, {0, 0, 195, 1}}},
    {"deepest, filled up", "a=" NESTED_OPEN "a", ".a", NESTED_CLOSE "$",
     {{0, 0, 195, 0}, {0, 0, 65535, 1}, {0, 0, 65535, 1}, {0, 0, 65535, 1}}},
    {"deepest value, filled up", NESTED_OPEN "a", ".a", " " NESTED_CLOSE,
     {{0, 0, 65537, 0}, {0, 0, 65537, 1}, {0, 0, 65536, 2}, {0, 0, 194, 0}}},
    {"one level too deep", "a=" NESTED_OPEN, "", "[" NESTED_CLOSE "$",
     {{6, 130, 130, 0}, {0, 0, 195, 1}, {0, 0, 195, 1}, {0, 0, 195, 1}}},
    {"one level too deep, at the end", "\n", "a=a\n", "a=" NESTED_OPEN "[",
     {{6, 65535, 65535, 0}, {0, 0, 65537, 1}, {0, 0, 65536, 2}, {0, 0, 65537, 1}}},
};
#define LISTS ((int)(sizeof lists / sizeof *lists))

static size_t count_records(const struct list *list) {
    return *list->body ? DECKMARTEN_LIMIT_RECORDS : strlen(list->head) + strlen(list->tail);
}

/* Writes the records of a list. */
static void write_records(const struct list *list, uint8_t *record) {
    const uint8_t *end = record + DECKMARTEN_SIZE_RECORD * (count_records(list) - strlen(list->tail));
    record = write_text(list->head, record);
    while (record < end) record = write_text(list->body, record);
    write_text(list->tail, record);
}
