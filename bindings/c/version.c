/* Ends with 0 if the archive is of the header's version, else with 1 and a line that says both. */
#include <stdio.h>

#include "deckmarten.h"

int main(void) {
    if (deckmarten_version() == DECKMARTEN_VERSION) return 0;
    fprintf(stderr, "the archive is of version %u, and the header of %u\n", (unsigned)deckmarten_version(), (unsigned)DECKMARTEN_VERSION);
    return 1;
}
