/* Checks a text by one call: says nothing and ends with 0 if it fits, else prints its mistakes or why it was not judged, and ends with 1 or 2.
 *
 *   check < FILE      a text of up to 65,535 bytes here */
#include <stdio.h>

#include "deckmarten.h"
#include "deckmarten_text.h"

#define BYTES 65535
static uint8_t text[BYTES + 1], records[DECKMARTEN_RECORD_BYTES(DECKMARTEN_TEXT_RECORDS(BYTES))];
static uint32_t events[DECKMARTEN_TEXT_EVENT_WORDS(BYTES)], errors[DECKMARTEN_TEXT_ERROR_WORDS(BYTES)];
static uint32_t mistakes[DECKMARTEN_TEXT_MISTAKE_WORDS(BYTES)];

int main(void) {
    size_t bytes = fread(text, 1, sizeof text, stdin), i;
    if (ferror(stdin) || bytes > BYTES) {
        fprintf(stderr, "check: standard input %s\n", ferror(stdin) ? "cannot be read" : "has more than 65,535 bytes");
        return 2;
    }
    struct deckmarten_check check =
        deckmarten_check_text(text, bytes, records, sizeof records, events, sizeof events / sizeof *events, errors,
                              sizeof errors / sizeof *errors, mistakes, sizeof mistakes / sizeof *mistakes);
    if (check.refusal != 0) {
        printf("not judged: %s, at %zu\n", deckmarten_refusal_text(check.refusal), check.place);
        return 2;
    }
    for (i = 0; i < check.mistakes; i++) {
        const uint32_t *mistake = mistakes + DECKMARTEN_SIZE_ERROR * i;
        printf("line %u: %s at %u..%u\n", (unsigned)mistake[6], deckmarten_message_text(mistake[0]), (unsigned)mistake[4], (unsigned)mistake[5]);
    }
    return check.mistakes == 0 ? 0 : 1;
}
