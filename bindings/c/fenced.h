/* Memory between pages that must not be touched, and threads whose stacks are such memory and are painted, so that it shows how much of
 * them was used. */
#include <pthread.h>
#include <stdio.h>
#include <stdlib.h>
#include <string.h>
#include <sys/mman.h>
#include <unistd.h>

#define STACK ((size_t)256 * 1024)
#define PAINT 0x5a

static _Noreturn void stop(const char *what) {
    fprintf(stderr, "%s\n", what);
    exit(1);
}

/* Memory between two pages that must not be touched. */
struct fenced {
    unsigned char *pages;
    size_t size; /* of the pages between the fences */
};

static struct fenced fence(size_t bytes) {
    size_t page = (size_t)sysconf(_SC_PAGESIZE), size = (bytes + page - 1) / page * page;
    unsigned char *all = mmap(NULL, size + 2 * page, PROT_NONE, MAP_PRIVATE | MAP_ANONYMOUS, -1, 0);
    if (all == MAP_FAILED || mprotect(all + page, size, PROT_READ | PROT_WRITE)) stop("no memory");
    return (struct fenced){all + page, size};
}

/* The last, or the first, so many bytes between the fences. */
static void *lend(struct fenced memory, size_t bytes, int at_end) { return memory.pages + (at_end ? memory.size - bytes : 0); }

/* Runs a function in a thread with this stack, painted; how many bytes of the stack were written. */
static size_t stack_used(struct fenced stack, void *(*function)(void *), void *data) {
    pthread_attr_t attributes;
    pthread_t thread;
    memset(stack.pages, PAINT, stack.size);
    if (pthread_attr_init(&attributes) || pthread_attr_setstack(&attributes, stack.pages, stack.size)) stop("no such stack");
    if (pthread_create(&thread, &attributes, function, data) || pthread_join(thread, NULL)) stop("no thread");
    size_t untouched = 0;
    while (untouched < stack.size && stack.pages[untouched] == PAINT) untouched++;
    return stack.size - untouched;
}

static void *do_nothing(void *data) { return data; }
