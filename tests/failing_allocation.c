/* Makes one allocation of a program fail: that of the number in FAILING_ALLOCATION, counted from 1. A library to be
 * preloaded: a program of this repository takes all its memory by malloc and realloc. When the allocation fails, a byte is
 * written to the file descriptor 3. */
#define _GNU_SOURCE
#include <dlfcn.h>
#include <stdlib.h>
#include <unistd.h>

static void *(*next_malloc)(size_t);
static void *(*next_realloc)(void *, size_t);
static unsigned long failing, seen;

__attribute__((constructor)) static void start(void) {
    const char *number = getenv("FAILING_ALLOCATION");
    next_malloc = dlsym(RTLD_NEXT, "malloc");
    next_realloc = dlsym(RTLD_NEXT, "realloc");
    failing = number ? strtoul(number, NULL, 10) : 0;
}

/* What is taken before the program starts is not its own. */
static int fails(void) {
    if (failing == 0 || ++seen != failing)
        return 0;
    return write(3, "x", 1) == 1;
}

void *malloc(size_t size) {
    if (next_malloc == NULL)
        next_malloc = dlsym(RTLD_NEXT, "malloc");
    return fails() ? NULL : next_malloc(size);
}

void *realloc(void *block, size_t size) {
    if (next_realloc == NULL)
        next_realloc = dlsym(RTLD_NEXT, "realloc");
    return fails() ? NULL : next_realloc(block, size);
}
