/* The smallest program: is this text a document? */
#include <stdio.h>

#include "deckmarten.h"

static const uint8_t text[] = "[jobs.main]\nledger = \"main.db\"\n";
#define BYTES (sizeof text - 1)
#define RECORDS DECKMARTEN_TEXT_RECORDS(BYTES)

int main(void) {
    static uint8_t records[DECKMARTEN_RECORD_BYTES(RECORDS)];
    static uint32_t events[DECKMARTEN_SIZE_EVENT * RECORDS]; /* room for one event a record */
    struct deckmarten_verdict verdict =
        deckmarten_text_fits(text, BYTES, records, sizeof records, events, sizeof events / sizeof *events);
    puts(verdict.fits ? "fits" : "does not fit");
    return verdict.fits ? 0 : 1;
}
