/* Asks the Rust library beside it, which has no std, whether two texts are documents: the first is one. */
#include <stdbool.h>
#include <stddef.h>
#include <stdint.h>
#include <string.h>

bool is_document(const uint8_t *text, size_t bytes);

/* Rust's core names it for unwinding, which is std's and does not happen here. */
void rust_eh_personality(void);
void rust_eh_personality(void) {}

static bool asked(const char *text) { return is_document((const uint8_t *)text, strlen(text)); }

int main(void) { return asked("a = 1\n") && !asked("[=a]\n") ? 0 : 1; }
