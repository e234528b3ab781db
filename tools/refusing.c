/* Loaded in front of a program's C library, it refuses the program's N-th request for memory, where the environment has
   REFUSE_AT=N, and prints on standard error, in a last line `requests K`, how many there were. A program of Rattle asks
   by malloc and realloc alone. */
#define _GNU_SOURCE
#include <dlfcn.h>
#include <stdio.h>
#include <stdlib.h>
#include <unistd.h>

static unsigned long requests;

static int is_refused(void) {
    static unsigned long at;
    if (requests++ == 0) {
        const char *word = getenv("REFUSE_AT");
        at = word ? strtoul(word, 0, 10) : 0;
    }
    return requests == at;
}

void *malloc(size_t size) {
    static void *(*next)(size_t);
    if (!next) next = dlsym(RTLD_NEXT, "malloc");
    return is_refused() ? 0 : next(size);
}

void *realloc(void *old, size_t size) {
    static void *(*next)(void *, size_t);
    if (!next) next = dlsym(RTLD_NEXT, "realloc");
    return is_refused() ? 0 : next(old, size);
}

__attribute__((destructor)) static void tell(void) {
    char line[64];
    int length = snprintf(line, sizeof line, "requests %lu\n", requests);
    if (write(2, line, length) != length) _exit(3);
}
