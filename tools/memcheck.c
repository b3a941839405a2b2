/* Linked into a static program by tools/memcheck, so that memcheck can watch it. Of a static program memcheck sees no malloc, and it takes
 * what the C library's start lays into the memory above the program, thread data among it, for never written, though that memory comes
 * as zeros. So the program's calls of malloc come here, and each block is told to memcheck, with borders that must not be touched; a
 * block that was freed stays forbidden and is never used again. */
#undef malloc
#undef calloc
#undef realloc
#undef free
#include <stdint.h>
#include <stdlib.h>
#include <string.h>
#include <unistd.h>
#include <valgrind/memcheck.h>

/* Bytes before and after a block. The first of those before it hold its size. */
#define BORDER 64

void *watched_malloc(size_t size);
void *watched_calloc(size_t count, size_t size);
void *watched_realloc(void *old, size_t size);
void watched_free(void *memory);

extern char end; /* of the program; the memory above it starts here */

__attribute__((constructor)) static void start(void) {
    VALGRIND_MAKE_MEM_DEFINED(&end, (uintptr_t)sbrk(0) - (uintptr_t)&end);
}

static void *block(size_t size, int zeroed) {
    unsigned char *memory = size <= PTRDIFF_MAX - 2 * BORDER ? calloc(1, size + 2 * BORDER) : NULL;
    if (!memory) return NULL;
    VALGRIND_MALLOCLIKE_BLOCK(memory + BORDER, size, BORDER, zeroed);
    VALGRIND_MAKE_MEM_UNDEFINED(memory, sizeof size);
    memcpy(memory, &size, sizeof size);
    return memory + BORDER;
}

static size_t size_of(const void *memory) {
    size_t size;
    memcpy(&size, (const unsigned char *)memory - BORDER, sizeof size);
    return size;
}

void *watched_malloc(size_t size) { return block(size, 0); }

void *watched_calloc(size_t count, size_t size) {
    size_t all;
    return __builtin_mul_overflow(count, size, &all) ? NULL : block(all, 1);
}

void *watched_realloc(void *old, size_t size) {
    void *memory = block(size, 0);
    if (!old || !memory) return memory;
    memcpy(memory, old, size_of(old) < size ? size_of(old) : size);
    watched_free(old);
    return memory;
}

void watched_free(void *memory) {
    if (memory) VALGRIND_FREELIKE_BLOCK(memory, BORDER);
}
