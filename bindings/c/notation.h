/* A short notation for lists of records, a character a token. The characters . = , [ ] { } stand for themselves, a space for Whitespace,
 * # for a Comment, \n for a Newline, ' and " for a literal and a basic string, L and B for multi-line ones, a for an Atom and $ for
 * Eof. Each token has one byte, but for Eof. */
#include <stddef.h>
#include <stdint.h>
#include <string.h>

#include "deckmarten.h"

#define KINDS ".=,[]{} #\n'\"LBa$" /* by their numbers, from 1 */

/* Writes the record of a character, and answers the place after it. */
static uint8_t *write_record(char character, uint8_t *record) {
    uint32_t kind = (uint32_t)(strchr(KINDS, character) - KINDS + 1);
    return deckmarten_put_record(record, kind, kind != DECKMARTEN_KIND_EOF);
}

/* Writes the records of a text, and answers the place after them. */
static uint8_t *write_text(const char *text, uint8_t *record) {
    while (*text) record = write_record(*text++, record);
    return record;
}
