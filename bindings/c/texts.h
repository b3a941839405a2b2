/* Small texts, with the tokens and the verdict that each must have. What is expected was taken from lexer/mod.rs and document.rs, read
 * beside docs/DIFFERENCES.md; ./differ compares whole answers with both compiled unchanged over stand-ins for the files that are not here. */
#include <stdbool.h>

#include "notation.h"

/* A text with a bar behind each token, the kinds of its tokens in the short notation, and whether it fits. */
struct text {
    const char *tokens;
    size_t size; /* of `tokens`, which may have a byte 0 in it */
    const char *kinds;
    bool fits;
};
#define TEXT(tokens, kinds, fits) {tokens, sizeof tokens - 1, kinds "$", fits}

static const struct text texts[] = {
    /* the texts of document 01, but for 10 and 11, which are keys without an end */
    TEXT("", "", true),
    TEXT("a|=|1|", "a=a", true),
    TEXT("[|a|]|\n|", "[a]\n", true),
    TEXT("[|[|a|]|\n|", "[[a]\n", false),
    TEXT("[|=|\n|", "[=\n", false),
    TEXT("x|=|{|[|x|]|}|", "a={[a]}", false),
    TEXT("x|=|{|a|=|}|", "a={a=}", false),
    TEXT("x|=|{|}|", "a={}", true),
    TEXT("x|=|{|a|=|[|", "a={a=[", false),
    TEXT("x|=|[|1| |2|,|]|", "a=[a a,]", true),
    TEXT("x|=|[|1| |\"b\"|]|", "a=[a \"]", false),
    TEXT("x|=|[|}|]|", "a=[}]", false),
    /* no error is reported, but something was invented */
    TEXT("[|=|ledger|]|\n|", "[=a]\n", false),
    TEXT("[|]|", "[]", false),
    TEXT("a|=|\n|", "a=\n", false),
    /* documents */
    TEXT(" \t|a|.|'b'| |=| |1|.|5|\t|# c \0\x7f \xc3\xa9|\r\n|", " a.' = a.a #\n", true),
    TEXT("[|[|\"a\"|]|]|\n|a|=|{|b|=|[|1|,|\n|]|,|c|=|'''\n'''|}|", "[[\"]]\na={a=[a,\n],a=L}", true),
    TEXT("\xc3\xa9|=|\xf0\x9f\xa6\xa1|", "a=a", true),
    TEXT("a|=|''''''''|", "a=L", true),
    TEXT("a|=|''''''''|'|", "a=L'", false),
    /* what a yes does not promise: strings that are never closed, lone carriage returns, what is inside a token, a second definition */
    TEXT("a|=|'|", "a='", true),
    TEXT("a|=|\"x|\n|", "a=\"\n", true),
    TEXT("a|=|'''\n[b]\nc=1\n|", "a=L", true),
    TEXT("a|=|\"\"\"\\\"\"\"|", "a=B", true),
    TEXT("a|=|1|\r|b|=|2|", "a=a\na=a", true),
    TEXT("a|=|'x\ry'|", "a='", true),
    TEXT("a|=|\"\\q\"|", "a=\"", true),
    TEXT("a|=|\0\xc2\xa0\xef\xbb\xbf|", "a=a", true),
    TEXT("a|=|1\"2\"|\n|a|=|1\"2\"|", "a=a\na=a", true),
};
#define TEXTS ((int)(sizeof texts / sizeof *texts))
#define MARK "\xef\xbb\xbf" /* the byte order mark */
#define MOST 64             /* bytes of a text here, and its records */

/* A text as it is lent, and its records. */
struct lexed_text {
    uint8_t bytes[MOST], records[DECKMARTEN_SIZE_RECORD * MOST];
    size_t size, count;
    uint32_t base;
};

/* The text and its records, behind a byte order mark or not. */
static struct lexed_text lexed_text(const struct text *text, bool marked) {
    struct lexed_text made = {.count = strlen(text->kinds), .base = marked ? 3 : 0};
    write_text(text->kinds, made.records);
    memcpy(made.bytes, MARK, made.base);
    made.size = made.base;
    size_t token = 0, start = made.size;
    for (size_t i = 0; i < text->size; i++) {
        if (text->tokens[i] != '|') {
            made.bytes[made.size++] = (uint8_t)text->tokens[i];
            continue;
        }
        made.records[DECKMARTEN_SIZE_RECORD * token++] = (uint8_t)(made.size - start);
        start = made.size;
    }
    return made;
}
